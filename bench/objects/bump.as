// ticks 200002
// answer 200000
// events 200003
// A method of one object of the host, called in a loop.
int64 main() {
    Counter@ counter = Counter(0);
    for (int i = 0; i < 200000; i++) {
        counter.bump();
    }
    return counter.value();
}
