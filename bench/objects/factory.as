// ticks 100002
// answer 4999950000
// events 300000
// A new object in each pass of a loop, asked once, which ends with the pass.
int64 main() {
    int64 sum = 0;
    for (int i = 0; i < 100000; i++) {
        Counter@ counter = Counter(i);
        sum += counter.value();
    }
    return sum;
}
