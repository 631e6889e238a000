# The console's functions for printing, and its register.
mask 00000001
function 0 0 void print(int64)
global 0 0 int64 reg
