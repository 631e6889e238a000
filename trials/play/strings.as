void greet() {
	print("hello there");
}
