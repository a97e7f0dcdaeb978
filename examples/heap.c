// A block that was given back is taken again.
int *make(int value) {
  int *p;
  p = malloc(sizeof(int));
  *p = value;
  return p;
}

int main() {
  int *p;
  int *q;
  p = make(7);
  putint(*p);
  free(p);
  q = make(8);
  putint(*q);
  putint(p == q);
  free(q);
}
