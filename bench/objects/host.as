// ticks 1000002
// answer 1000000
// events 1000000
// A function of the host, called in a loop: a million host calls in one command.
int64 main() {
    int64 s = 0;
    for (int i = 0; i < 1000000; i++) {
        s = sum(s, 1);
    }
    return s;
}
