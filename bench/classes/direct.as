// ticks 10000002
// answer 12499997500000
// A method of an object of its own class, called in a loop.
class Sum {
    int64 total;

    void add(int64 n) {
        total += n;
    }
}

int64 main() {
    Sum sum;
    for (int i = 0; i < 5000000; i++) {
        sum.add(i);
    }
    return sum.total;
}
