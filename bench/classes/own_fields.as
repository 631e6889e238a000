// ticks 5000003
// answer 5000000
// Fields of the object whose method runs, read and stored in a loop.
class Pair {
    int64 first;
    int64 second;

    void turn(int count) {
        for (int i = 0; i < count; i++) {
            int64 kept = first;
            first = second;
            second = kept + 1;
        }
    }
}

int64 main() {
    Pair pair;
    pair.turn(5000000);
    return pair.first + pair.second;
}
