ktask 1
kind leaf n
state start
  done n
end
kind bad
  var x @a
state start
spawn @a leaf 1
  again fin
state fin holds @a settled @a
  done 1
end
root r bad
