void greet() {
	/* 挨拶 é */	print('a');
}
