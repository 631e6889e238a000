// Half of a number.
int half(int n) {
	return n * 0.5;
}
