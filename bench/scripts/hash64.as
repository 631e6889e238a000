// ticks 4000002
// answer 3795003500406998176
// A hash of numbers in 64 bits without a sign: a multiplication, exclusive ors, and shifts to both sides.
int64 main() {
    uint64 hash = 0xCBF29CE484222325;
    for (uint64 i = 0; i < 4000000; i++) {
        hash = (hash ^ (i & 0xFF)) * 0x100000001B3;
        hash ^= hash << 13;
        hash ^= hash >> 7;
    }
    return hash >> 1;
}
