# A trap is passed on by `get` alone. The quotient traps; a root behind it that does not ask for its number runs, and one
# that asks traps too. The status is 1.
# It prints
#   root quotient trap divide
#   root waits 1
#   root asks trap divide
#   activations 3
#   tasks 3
#   nulls 0
#   held 3 0 0 0
ktask 1
kind quotient a b
  var x
state start
  div x a b
  done x
end
kind waits
state start
  done 1
end
kind asks @p
  var x
state start holds @p settled @p
  get x @p
  add x x 1
  done x
end
root quotient quotient 7 0
root waits waits behind @quotient
root asks asks @quotient behind @quotient
