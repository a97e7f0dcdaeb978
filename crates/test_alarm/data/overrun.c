int a[4];
int x;
int main() {
  x = 3;
  a[4] = 9;
  putint(x);
}
