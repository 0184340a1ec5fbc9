# Adds up the column `price` by halves: a task of more than one row spawns a task for each half, gathers them, and adds up
# what they give. A column that is not there has no rows, and gives 0. Run with `prices.csv`.
# It prints
#   root total 150
#   activations 23
#   tasks 14
#   nulls 0
#   held 1 0 0 0
ktask 1
kind sum low_row end_row
  var m x @a @b @g
state start
  sub m end_row low_row
  if m == 0 goto none
  if m == 1 goto one
  div m m 2
  add m low_row m
  spawn @a sum low_row m
  spawn @b sum m end_row
  all @g @a @b
  again both behind @g
  label one
  cell x price low_row
  done x
  label none
  done 0
state both holds @a @b settled @a @b
  get x @a
  get m @b
  add x x m
  done x
end
kind main
  var n x @a
state start
  rows n price
  spawn @a sum 0 n
  again out behind @a
state out holds @a settled @a
  get x @a
  done x
end
root total main
