# A function that prints, and a type of host objects.
mask 00000001
function 0 0 void print(int64)
type Counter 1
