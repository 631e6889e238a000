// ticks 3000002
// answer 2250001500000
// Global variables, read, stored and changed in a loop.
int64 first;
int64 second;
int64 total;

int64 main() {
    first = 0;
    second = 0;
    total = 0;
    for (int i = 0; i < 3000000; i++) {
        int64 kept = first;
        first = second;
        second = kept + 1;
        total += first;
    }
    return total + second;
}
