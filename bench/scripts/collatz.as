// ticks 6254916
// answer 6134916
// How many steps of Collatz lead to 1, over all starts below a bound.
int64 main() {
    int64 steps = 0;
    for (int64 start = 1; start < 60000; start++) {
        int64 n = start;
        while (n != 1) {
            if (n % 2 == 0) {
                n = n / 2;
            } else {
                n = 3 * n + 1;
            }
            steps++;
        }
    }
    return steps;
}
