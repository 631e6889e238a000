# A profile that is refused: the line is printed, and the session isn't looked at.
mask 00000001
function 0 0 void print(int64)
# Another mask doesn't free a name: names are judged over the whole list.
mask 00000002
function 0 1 void print(int64)
