ktask 1
kind gate
state start
  done 1
end
kind wide
var v0 v1 v2 v3 v4 v5 v6 v7 v8 v9 v10 v11 v12 v13 v14 v15
var v16 v17 v18 v19 v20 v21 v22 v23 v24 v25 v26 v27 v28 v29 v30 v31
state start
  done 0
end
kind fill @p
  var @a
state start holds @p
spawn @a wide behind @p
  again start
end
root g gate low
root f fill @g
