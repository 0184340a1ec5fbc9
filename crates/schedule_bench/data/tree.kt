ktask 1
kind tree d
  var e @a @b
state start
  if d == 0 goto out
  sub e d 1
  spawn @a tree e
  spawn @b tree e
  again last behind @b
  label out
  done 1
state last
  done 1
end
root r tree 6
