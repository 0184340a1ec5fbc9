ktask 1
spa
