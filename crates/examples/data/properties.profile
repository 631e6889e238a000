# The console's register, under a name that can be written and under one that can't,
# and a function that prints.
mask 00000001
global 0 0 int64 reg
global 0 0 const int64 limit
function 0 0 void print(int64)
# Function 2 of the console answers the fault that it is given.
function 0 2 void fail(uint)
