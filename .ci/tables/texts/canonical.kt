ktask 1
kind one
state start
done 7
end
kind bad
var @a x
state s
get x @a
done x
end
root p one
