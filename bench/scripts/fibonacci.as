// ticks 7049156
// answer 2178309
// Calls: a number of Fibonacci by its definition, thirty-three functions one inside the other at the deepest.
int64 fibonacci(int n) {
    if (n < 2) {
        return n;
    }
    return fibonacci(n - 1) + fibonacci(n - 2);
}

int64 main() {
    return fibonacci(32);
}
