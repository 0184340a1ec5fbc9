ktask 1
kind one
state start
  set x 1
  done x
end
