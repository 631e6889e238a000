# Counters: the console is driver 0, the counters' driver 1, the cells' driver 2.
mask 00000001
type Counter 1
factory Counter 1 Counter@ f(int)
method Counter 0 void bump()
method Counter 1 int value() const
property Counter 0 int step
# Cells, which a function takes and gives back.
type Cell 2
factory Cell 0 Cell@ f(int)
method Cell 0 int get() const
function 2 2 Cell@+ pick(Cell@+)
