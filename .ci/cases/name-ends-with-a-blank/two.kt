ktask 1
kind one
state start
  done 2
end
root r one
