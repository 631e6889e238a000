// ticks 8877183
// answer 4433880
// The greatest common divisors of all pairs below a bound, by remainders: a call and a short loop each.
int64 gcd(int64 a, int64 b) {
    while (b != 0) {
        int64 rest = a % b;
        a = b;
        b = rest;
    }
    return a;
}

int64 main() {
    int64 sum = 0;
    for (int64 a = 1; a < 1000; a++) {
        for (int64 b = 1; b < 1000; b++) {
            sum += gcd(a, b);
        }
    }
    return sum;
}
