# A chain of tasks that adds up 1 to n: each task spawns the next shorter chain and respawns behind it.
# It prints
#   root r 5050
#   activations 201
#   tasks 101
#   nulls 0
#   held 1 0 0 0
ktask 1
kind chain n
  var m x @rest
state start
  if n == 0 goto out
  sub m n 1
  spawn @rest chain m
  again plus behind @rest
  label out
  done 0
state plus holds @rest settled @rest
  get x @rest
  add x x n
  done x
end
root r chain 100
