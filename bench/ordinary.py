"""Of what ordinary sections are made, as a game's script has it; a number stands in the place of each `%d`."""

UNIT = """\
// A unit and what it does in each turn.
class Unit%d : Thing {
    private int health;
    protected int8 armour, speed;
    Unit%d(int start, bool fast) { super(start); health = start * 2 + 1; if (fast) speed = 3; else speed = 1; }
    int hit(int points, const Unit%d@ by) const { return health - points / (armour + 1) >> 1; }
"""

# The rest of the class, after the head of its method `turn`.
TURN = """\
        for (int i = 0; i < 10 && health > 0; i++) {
            if ((mask & 0xFF) == 7 || !alive(i)) { left += by_rank(i, mask); continue; }
            health = health > 3 ? health - 3 : 0;
        }
    }
}
"""
