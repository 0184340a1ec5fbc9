ktask 1
kind leaf n
state start
  done n
end
kind bad
  var x @a
state start
spawn @a leaf 1
  get x @a
  done x
end
root r bad
