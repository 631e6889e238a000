// ticks 12120402
// answer 1439145600
// Three loops in one another, with a sum in the innermost.
int64 main() {
    int64 sum = 0;
    for (int i = 0; i < 200; i++) {
        for (int j = 0; j < 300; j++) {
            for (int k = 0; k < 200; k++) {
                sum += i ^ k;
            }
        }
    }
    return sum;
}
