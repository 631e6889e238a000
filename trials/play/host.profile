# What the scripts of this folder are given. Bit 0 is for all of them, bit 1 for the staff's.
limit objects 2
mask 00000003
function 0 0 void print(int64)
function 0 1 int64 sum(int64, int64)
function 0 2 void stop(uint)
global 0 0 int64 reg
global 0 1 const bool open
type Cell 1
factory Cell 0 Cell@ f(int)
method Cell 0 int get() const
method Cell 1 void set(int)
property Cell 0 int weight
function 1 2 Cell@+ pick(Cell@+)
enum Color
value Color RED 1
value Color BLUE -2
enum Light
value Light BLUE 5
mask 00000002
function 0 3 void grant(int64, int64)
type Vault 2
factory Vault 0 Vault@ f()
method Cell 2 void burn()
mask 00000003
method Vault 0 void lock()
