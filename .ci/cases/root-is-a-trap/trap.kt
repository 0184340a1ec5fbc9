ktask 1
kind big
  var x
state start
  add x 18446744073709551615 1
  done x
end
root r big
