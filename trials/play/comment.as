int a;
/* what follows is
int b;
