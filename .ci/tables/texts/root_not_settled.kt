ktask 1
kind one
state start
  done 1
end
kind reader @p
  var x
state start holds @p settled @p
  get x @p
  done x
end
root p one
root s reader @p
