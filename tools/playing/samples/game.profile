# A game. Bit 0: players' scripts. Bit 1: quests. Bit 2: the game's own rules.
mask 00000007
function 0 0 void say(int64)
enum Element
value Element STONE 0
value Element FIRE 1
type Monster 1
method Monster 1 int health() const
mask 00000006
method Monster 0 void heal()
property Monster 0 int strength
mask 00000004
factory Monster 1 Monster@ spawn(int)
function 0 2 void banish(uint)
global 0 0 int64 gold
mask 00000001
global 0 0 const int64 purse
limit objects 20
