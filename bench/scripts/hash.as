// ticks 12000002
// answer 3598711204
// A hash of numbers in 32 bits without a sign: a multiplication, an exclusive or, and the shifts at the end.
int64 main() {
    uint hash = 0x811C9DC5;
    for (uint i = 0; i < 12000000; i++) {
        hash = (hash ^ (i & 0xFF)) * 0x01000193;
        hash ^= hash >> 15;
    }
    return hash;
}
