// The loop runs one item too far, and the store lands in x.
int a[4];
int x;
int main() {
  int i;
  x = 3;
  for (i = 0; i <= 4; i++) { a[i] = 9; }
  putint(x);
}
