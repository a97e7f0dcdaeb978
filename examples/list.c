// Two threads sum a linked list each.
struct node { int value; struct node *next; };

int total[2];

int sum(struct node *list) {
  int s = 0;
  while (list != NULL) { s += list->value; list = list->next; }
  return s;
}

int main() {
  struct node *heads[2];
  struct node *n;
  int k = 0;
  heads[0] = NULL;
  heads[1] = NULL;
  while (left() > 0) {
    n = (struct node *)malloc(sizeof(struct node));
    n->value = getint();
    n->next = heads[k];
    heads[k] = n;
    k = 1 - k;
  }
  par { { total[0] = sum(heads[0]); } { total[1] = sum(heads[1]); } }
  putint(total[0] + total[1]);
  return 0;
}
