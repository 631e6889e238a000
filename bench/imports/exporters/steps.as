// The function that bench/imports/bound.as imports.
int64 step(int64 n, int64 by) {
    return n + by;
}
