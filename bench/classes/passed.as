// ticks 6000003
// answer 9000000
// A handle as an argument of a function, which asks the object.
class Box {
    int64 held;

    Box(int64 n) {
        held = n;
    }
}

int64 held_by(Box@ box) {
    return box.held;
}

int64 main() {
    Box box(3);
    int64 sum = 0;
    for (int i = 0; i < 3000000; i++) {
        sum += held_by(box);
    }
    return sum;
}
