ktask 1
kind below
  var x
state start
  sub x 0 1
  done x
end
kind plus a b
  var x
state start
  add x a b
  done x
end
root under below
root fine plus 3 4
