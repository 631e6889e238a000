int total;
void total() {}
void print(int64 n) {}
int next(int n) { return n + 1; }
bool next(int m) { return true; }
void grant(int64 to) {}
