// ticks 40000002
// answer 40000000
// An empty loop that counts in 32 bits.
int64 main() {
    int i = 0;
    for (; i < 40000000; i++) {}
    return i;
}
