ktask 1
kind k
  var x @a
state s
  get x @a
  done x
end
