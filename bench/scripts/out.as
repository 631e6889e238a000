// ticks 6000002
// answer 44000000
// Arguments by `&out`: functions with one and with two of them, called in turn in a loop.
void raise(int64 n, int64 &out more) {
    more = n + 3;
}

void turn(int64 a, int64 b, int64 &out first, int64 &out second) {
    first = b;
    second = a + 1;
}

int64 main() {
    int64 one = 0;
    int64 other = 0;
    for (int i = 0; i < 2000000; i++) {
        raise(one, one);
        turn(one, other, one, other);
    }
    return one * 10 + other;
}
