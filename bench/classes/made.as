// ticks 2000002
// answer 499999500000
// A new object in each pass of a loop, asked once, which ends with the pass.
class Box {
    int64 held;

    Box(int64 n) {
        held = n;
    }
}

int64 main() {
    int64 sum = 0;
    for (int i = 0; i < 1000000; i++) {
        Box box(i);
        sum += box.held;
    }
    return sum;
}
