# Fibonacci numbers by tasks. A task below 2 is done at once; any other spawns two tasks, respawns behind the one
# and then behind the other, and adds up what they give.
# It prints
#   root r 55
#   activations 353
#   tasks 177
#   nulls 0
#   held 1 0 0 0
ktask 1
kind fib n
  var x y @a @b
state start
  if n < 2 goto small
  sub x n 1
  sub y n 2
  spawn @a fib x
  spawn @b fib y
  again first behind @a
  label small
  done n
state first holds @a @b settled @a
  again sum behind @b
state sum holds @a @b settled @a @b
  get x @a
  get y @b
  add x x y
  done x
end
root r fib 10
