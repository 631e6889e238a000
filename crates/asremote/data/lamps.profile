mask 00000001
limit objects 2
type Lamp 0
factory Lamp 0 Lamp@ f(uint8)
method Lamp 1 void flash(int, bool)
property Lamp 2 int watts
function 0 3 Lamp@+ brighter(Lamp@+, Lamp@+)
posted 0 4 void log(int)
