ktask 1
kind spin
state start
  again start
end
root r spin
