# a comment
ktask 1
kind one
state start
  done  001
end
root r one
