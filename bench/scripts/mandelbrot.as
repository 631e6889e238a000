// ticks 3279246
// answer 2983820
// How many turns the points of a grid stay within the circle, in numbers with 16 bits after the point.
int turns(int64 x, int64 y) {
    int64 a = 0;
    int64 b = 0;
    int n = 0;
    while (n < 100) {
        int64 aa = a * a >>> 16;
        int64 bb = b * b >>> 16;
        if (aa + bb > 262144) {
            break;
        }
        b = (a * b >>> 15) + y;
        a = aa - bb + x;
        n++;
    }
    return n;
}

int64 main() {
    int64 sum = 0;
    for (int64 y = -65536; y < 65536; y += 512) {
        for (int64 x = -131072; x < 65536; x += 512) {
            sum += turns(x, y);
        }
    }
    return sum;
}
