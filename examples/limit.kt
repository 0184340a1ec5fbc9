# A task that respawns without end meets the limit of 1,000,000 activations; each root that stands behind it is cut as
# well. A root that spawns it and does not wait has its number before. The status is 4.
# It prints
#   root patient 5
#   root spins limit
#   root waits limit
#   activations 1000000
#   tasks 4
#   nulls 0
#   held 3 0 0 0
#   cause spins limit 2
#   cause waits limit 3 2
ktask 1
kind spin
state start
  again start
end
kind patient
  var @a
state start
  spawn @a spin
  done 5
end
root patient patient
root spins spin
root waits patient behind @spins
