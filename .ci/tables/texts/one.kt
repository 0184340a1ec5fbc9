ktask 1
kind one
state start
  done 1
end
root r one
