string name;
void nothing;
Cell copy() { return Cell(1); }
void many(int, int, int, int, int, int, int, int, int, int, int, int, int, int, int, int, int, int, int, int, int, int, int, int, int, int, int, int, int, int, int, int, int) {}
class Door : Gate {}
class Chest { Door inner; }
import void fill(int &out x) from "other";
int@ handle;
void open_vault(Vault@ v) {}
