// ticks 2000003
// answer 21
// Handles of two objects change places in a loop, an odd number of times.
class Box {
    int64 held;

    Box(int64 n) {
        held = n;
    }
}

int64 main() {
    Box@ one = Box(1);
    Box@ other = Box(2);
    for (int i = 0; i < 1999999; i++) {
        Box@ first = one;
        @one = other;
        @other = first;
    }
    return one.held * 10 + other.held;
}
