// The block is read after it was given back.
int main() {
  int *p;
  p = malloc(sizeof(int));
  *p = 7;
  free(p);
  putint(*p);
}
