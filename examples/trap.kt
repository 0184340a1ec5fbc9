# A trap is passed on only where its number is asked for. The child traps; the first root gets its number and traps
# too, and the second stands behind the child without asking. The status is 1.
# It prints
#   root asks trap overflow
#   root waits 5
#   activations 6
#   tasks 4
#   nulls 0
#   held 2 0 0 0
ktask 1
kind below
  var x
state start
  sub x 0 1
  done x
end
kind asks
  var x @a
state start
  spawn @a below
  again next behind @a
state next holds @a settled @a
  get x @a
  done x
end
kind waits
  var @a
state start
  spawn @a below
  again next behind @a
state next
  done 5
end
root asks asks
root waits waits
