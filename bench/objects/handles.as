// ticks 1000002
// answer 1000001
// events 4
// Handles of two objects change places in a loop, and one of them is stored into a global; no object is asked.
Counter@ kept;

int64 main() {
    Counter@ one = Counter(1);
    Counter@ other = Counter(2);
    int64 same = 0;
    for (int i = 0; i < 1000000; i++) {
        Counter@ first = one;
        @one = other;
        @other = first;
        @kept = one;
        if (kept is one) {
            same++;
        }
    }
    return same + kept.value();
}
