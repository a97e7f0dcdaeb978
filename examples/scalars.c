int x;
int y;
int main() {
  x = 3;
  y = x;
  putint(y);
}
