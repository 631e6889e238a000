# Two levels of trust over one list: bit 0 is for guests, bit 1 for the staff.
mask 00000003
function 0 0 void print(int64)
mask 00000001
global 0 0 const int64 limit
mask 00000002
global 0 0 int64 quota
function 0 1 int64 sum(int64, int64)
