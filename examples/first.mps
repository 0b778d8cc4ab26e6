arena 8 8
table t 4
pool p amc front
ap x p exact
reserve x f:3:1
init x 2 7
commit x t.0
num t.0 2
