ktask 1
kind one
  var x
state s
  cell x a 0
  done x
end
root r one
