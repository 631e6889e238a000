// ticks 100002
// answer 5000050000
// events 400003
// In each pass of a loop one object of the host counts, and a new one of another type is made, asked once, and ends with the pass.
int64 main() {
    Counter@ counter = Counter(0);
    int64 total = 0;
    for (int i = 0; i < 100000; i++) {
        counter.bump();
        Cell@ cell = Cell(i);
        total += cell.get();
    }
    return total + counter.value();
}
