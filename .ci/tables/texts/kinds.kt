ktask 1
kind leaf n
state start
done n
end
kind wait @p
var x
state start holds @p settled @p
get x @p
done x
end
kind k n @p
var x @a @b @g
state start holds @p
