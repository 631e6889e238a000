import int other(int) from "other";

int divided(int n) { return 100 / n; }
int least(int n) { return n / -1; }
void forever() { while (true) {} }
int deep(int n) { return deep(n + 1); }
int of_null() { Cell@ cell; return cell.get(); }
void stopped(uint n) { stop(n); }
void printed(int64 n) { print(n); }
int unbound() { return other(1); }
int three() { Cell a(1); Cell b(2); Cell c(3); return c.get(); }
