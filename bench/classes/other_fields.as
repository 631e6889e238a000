// ticks 5000002
// answer 5000000
// Fields of two other objects, read and stored in a loop.
class Box {
    int64 held;
}

int64 main() {
    Box one;
    Box other;
    for (int i = 0; i < 5000000; i++) {
        int64 kept = one.held;
        one.held = other.held;
        other.held = kept + 1;
    }
    return one.held + other.held;
}
