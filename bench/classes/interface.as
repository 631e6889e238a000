// ticks 7500004
// answer 37500000
// Methods of two classes, called through handles to their interface.
interface Shape {
    int64 area();
}

class Square : Shape {
    int64 side;

    Square(int64 n) {
        side = n;
    }

    int64 area() {
        return side * side;
    }
}

class Strip : Shape {
    int64 length;

    Strip(int64 n) {
        length = n;
    }

    int64 area() {
        return length * 2;
    }
}

int64 main() {
    Shape@ one = Square(3);
    Shape@ other = Strip(3);
    int64 sum = 0;
    for (int i = 0; i < 2500000; i++) {
        sum += one.area();
        sum += other.area();
    }
    return sum;
}
