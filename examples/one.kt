# The smallest program: one root, whose task is done at once with the number 1.
# It prints
#   root r 1
#   activations 1
#   tasks 1
#   nulls 0
#   held 1 0 0 0
ktask 1
kind one
state start
  done 1
end
root r one
