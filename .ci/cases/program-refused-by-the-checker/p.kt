ktask 1
kind k
  var @a
state start
  drop @a
  done 0
end
