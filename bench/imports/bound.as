// ticks 10000002
// answer 12499997500000
// A function of another module, called in a loop through an import that is bound.
import int64 step(int64 n, int64 by) from "steps";

int64 main() {
    int64 n = 0;
    for (int i = 0; i < 5000000; i++) {
        n = step(n, i);
    }
    return n;
}
