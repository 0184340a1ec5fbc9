ktask 1
kind second
  var x
state start
  cell x price 1
  done x
end
root r second
