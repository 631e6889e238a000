interface Shape {
	int area();
}
class Square : Shape {
	int side;
	private int area() { return side * side; }
}
class Base {
	int size;
	int weigh() final { return 1; }
}
class Cube : Base {
	bool size;
}
class Crate : Base {
	int weigh() { return 2; }
}
class Bowl : Shape {
	int area() override { return 0; }
}
class Ball : Shape {
	int area() { return 3; }
}
