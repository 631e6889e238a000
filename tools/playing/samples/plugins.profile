# An editor and its plug-ins. Bit 0: any plug-in. Bit 1: plug-ins that may write. Bit 2: the editor's own scripts.
mask 00000007
function 0 0 void log(int64)
function 0 1 int64 add(int64, int64)
type Document 2
method Document 0 int length() const
mask 00000006
method Document 1 void resize(int)
mask 00000004
factory Document 0 Document@ open(int)
function 0 2 void stop(uint)
global 0 0 int64 opened
mask 00000003
global 0 0 const int64 documents
