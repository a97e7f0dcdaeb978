// The sum is read before anything was written to it.
int main() {
  int sum;
  int i;
  for (i = 0; i < 3; i++) { sum = sum + i; }
  putint(sum);
}
