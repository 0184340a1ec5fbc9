# a comment

ktask	1
root p one regular # last
kind one
  state start
  done 007
end
kind bad
var @a
var x
state s
  get x @a
  done x
end
