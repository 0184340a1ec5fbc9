ktask 1
kind one
  var x
state start
  mul x 2 3
  done x
end
root r one
