# A diamond of roots: two stand behind the top and are given its future, and the last is given the futures of both. It
# starts behind the one and respawns behind the other. Each root's block is held to the end.
# It prints
#   root top 2
#   root left 3
#   root right 7
#   root bottom 21
#   activations 5
#   tasks 4
#   nulls 0
#   held 4 0 0 0
ktask 1
kind number n
state start
  done n
end
kind plus n @p
  var x
state start holds @p settled @p
  get x @p
  add x x n
  done x
end
kind times @l @r
  var x y
state start holds @l @r settled @r
  again both behind @l
state both holds @l @r settled @l @r
  get x @l
  get y @r
  mul x x y
  done x
end
root top number 2
root left plus 1 @top behind @top
root right plus 5 @top behind @top
root bottom times @left @right behind @right
