# A sum and the console's register for all, and what modules of the mask 00000001 don't see.
mask 00000003
function 0 1 int64 sum(int64, int64)
global 0 0 int64 reg
mask 00000002
type Cell 2
function 0 0 void audit(int64)
global 0 0 int64 level
# The function's own mask meets the module's. It names a type whose mask doesn't.
mask 00000001
function 2 2 Cell@+ pick(Cell@+)
# A type that the module sees, and its only factory, which it doesn't.
type Counter 1
mask 00000002
factory Counter 0 Counter@ f()
# Two enumerations, entries 8 to 14, and a hidden one, 15 to 17.
mask 00000003
enum Color
value Color RED 1
value Color GREEN 3
value Color BLUE -2
enum Light
value Light DIM 4
value Light BLUE 5
mask 00000002
enum Secret
value Secret HIDDEN 7
value Secret GREEN 8
