# The console's functions for printing, under one mask, and a property that can only be read.
mask 00000001
function 0 0 void print(int64)
global 0 0 const int64 limit
