ktask 1
kind k n @p
var x @a
state t
done 0
state s
