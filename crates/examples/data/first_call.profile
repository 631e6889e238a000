# What the host offers. A line that begins with # is skipped, and so is an empty one.
#
# What follows is registered under this mask. A module sees an entry where the two masks
# have a bit in common.
mask 00000001
# Entry 0: a function of driver 0, the console. Its function 0 notes what it is given.
function 0 0 void print(int64)
# Entry 1: the console's function 1 adds two numbers.
function 0 1 int64 sum(int64, int64)
