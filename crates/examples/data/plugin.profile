# What stays, and a plug-in in a group of its own.
mask 00000001
function 0 0 void print(int64)
group weather
enum Sky
value Sky CLEAR 0
value Sky RAIN 1
function 0 1 int64 rainfall(int64, int64)
endgroup
