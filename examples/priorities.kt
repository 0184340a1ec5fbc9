# Priorities say how soon a ready task is started, and change no value: each task spawns four smaller ones, the first of
# high priority and the last of low, and adds up what they give.
# It prints
#   root r 64
#   activations 190
#   tasks 106
#   nulls 0
#   held 1 0 0 0
ktask 1
kind grid d
  var x @a @b @c @e @g
state start
  if d == 0 goto one
  sub x d 1
  spawn @a grid x high
  spawn @b grid x
  spawn @c grid x
  spawn @e grid x low
  all @g @a @b @c @e
  again sum behind @g
  label one
  done 1
state sum holds @a @b @c @e settled @a @b @c @e
  get d @a
  get x @b
  add d d x
  get x @c
  add d d x
  get x @e
  add d d x
  done d
end
root r grid 3
