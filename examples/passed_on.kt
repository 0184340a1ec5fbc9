# A future is passed on: the task spawns a number, and two tasks that are given its future and stand behind it. It keeps
# the future itself, and adds up all three.
# It prints
#   root r 35
#   activations 8
#   tasks 5
#   nulls 0
#   held 1 0 0 0
ktask 1
kind number n
state start
  done n
end
kind twice @p
  var x
state start holds @p settled @p
  get x @p
  add x x x
  done x
end
kind sum n
  var x y @a @b @c @g
state start
  spawn @a number n
  spawn @b twice @a behind @a
  spawn @c twice @a behind @a
  all @g @a @b @c
  again plus behind @g
state plus holds @a @b @c settled @a @b @c
  get x @a
  get y @b
  add x x y
  get y @c
  add x x y
  done x
end
root r sum 7
