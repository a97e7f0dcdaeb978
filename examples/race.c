// What is put out depends on who comes first.
int x;
int y;
int main() {
  x = 1;
  par { { x = 2; } { y = x; } }
  putint(y);
}
