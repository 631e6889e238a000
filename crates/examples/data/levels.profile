# One registration list for two levels of trust: bit 0 is for guests, bit 1 for staff.
#
# Entry 0, for both levels.
mask 00000003
function 0 0 void print(int64)
# Entry 1, for guests: the console's register under a name that can only be read.
mask 00000001
global 0 0 const int64 limit
# Entries 2 and 3, for staff: the same register under a name that can be written, and a sum.
mask 00000002
global 0 0 int64 quota
function 0 1 int64 sum(int64, int64)
