# A sum.
mask 00000001
function 0 1 int64 sum(int64, int64)
# Two enumerations, and the sum of two values. These are entries 1 to 8.
enum Color
value Color RED 1
value Color GREEN 3
value Color BLUE -2
enum Light
value Light DIM 4
value Light BLUE 5
function 0 1 int64 blend(Color, Color)
