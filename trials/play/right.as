// Asks functions, properties and an object of the host, and counts up to a number.
int64 last = 0;

int64 main() {
	print(3);
	reg = 4;
	Cell cell(5);
	cell.set(7);
	cell.weight += 2;
	last = sum(cell.get(), reg);
	return last;
}

uint sum_to(uint most) {
	uint total = 0;
	for (uint i = 1; i <= most; i++) total += i;
	return total;
}

bool is_open() { return open; }

void nothing() { pick(null); }
