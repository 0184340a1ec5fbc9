ktask 1
kind spin
state start
  again start
end
kind reader @p
  var x
state start holds @p settled @p
  get x @p
  done x
end
root r spin
root s reader @r behind @r
