class Purse {
	private int coins;
	protected int notes;
	Purse(int n) { coins = n; }
	int count() const { return coins; }
	void add(int n) { coins += n; }
}
class Wallet : Purse {
	Wallet() {}
}
void put(int &out x) { x = 1; }
void both(int64 a, int b) {}
void both(int a, int64 b) {}

void typo() { prinf(1); }
void no_match() { sum(1); }
void ambiguous() { both(1, 2); }
int which() { return BLUE; }
void no_default() { Purse p; }
int private_one(Purse@ p) { return p.coins; }
int protected_one(Purse@ p) { return p.notes; }
void constant(const Purse@ p) { p.add(1); }
void read_only() { open = true; }
void assign(Cell@ a, Cell@ b) { a = b; }
int conversion() { return 1 + true; }
void condition(int n) { if (n) print(1); }
void give() { put(1); }
void jump() { break; }
int no_return(int n) { if (n > 0) { return 1; } }
void hidden_function() { grant(1, 1000); }
void hidden_method(Cell@ c) { c.burn(); }
int fine() { return 1; }
