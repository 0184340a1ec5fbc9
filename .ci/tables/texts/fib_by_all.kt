ktask 1
kind fib n
  var x y @a @b @g
state start
  if n < 2 goto small
sub x n 1
  sub y n 2
  spawn @a fib x
  spawn @b fib y
  all @g @a @b
again sum behind @g
label small
  done n
state sum holds @a @b settled @a @b
  get x @a
  get y @b
add x x y
done x
end
root r fib 2
