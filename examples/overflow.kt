# A difference below 0 is a trap, which ends the task, and the status is 1. The other root has its number all the same.
# It prints
#   root under trap overflow
#   root fine 7
#   activations 2
#   tasks 2
#   nulls 0
#   held 2 0 0 0
ktask 1
kind below
  var x
state start
  sub x 0 1
  done x
end
kind plus a b
  var x
state start
  add x a b
  done x
end
root under below
root fine plus 3 4
