// ticks 25000002
// answer 25000000
// An empty loop that counts in 64 bits.
int64 main() {
    int64 i = 0;
    for (; i < 25000000; i++) {}
    return i;
}
