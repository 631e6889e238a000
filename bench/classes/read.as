// ticks 2000002
// answer 12000000
// Handles read from a field and from a global in a loop, and a field of each object.
class Inner {
    int64 value;
}

class Outer {
    Inner@ inner;
}

Inner@ kept;

int64 main() {
    Inner made;
    made.value = 3;
    Outer outer;
    @outer.inner = made;
    @kept = made;
    int64 sum = 0;
    for (int i = 0; i < 2000000; i++) {
        Inner@ first = outer.inner;
        sum += first.value;
        Inner@ second = kept;
        sum += second.value;
    }
    return sum;
}
