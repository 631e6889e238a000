// ticks 12908926
// answer 25997
// How many primes there are below a bound, by trial division.
int64 main() {
    int count = 0;
    for (int n = 2; n < 300000; n++) {
        bool prime = true;
        for (int d = 2; d * d <= n; d++) {
            if (n % d == 0) {
                prime = false;
                break;
            }
        }
        if (prime) {
            count++;
        }
    }
    return count;
}
