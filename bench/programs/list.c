/* A linked list of 1,000 nodes, reversed and summed twenty times. */
struct node {
    long value;
    struct node *next;
};

struct node nodes[1000];

struct node *reversed(struct node *list) {
    struct node *done = 0;
    struct node *next;
    while (list) {
        next = list->next;
        list->next = done;
        done = list;
        list = next;
    }
    return done;
}

long sum(struct node *list) {
    long total = 0;
    while (list) {
        total = total + list->value;
        list = list->next;
    }
    return total;
}

long main() {
    struct node *list = 0;
    long total = 0;
    int i;
    for (i = 0; i < 1000; i = i + 1) {
        nodes[i].value = i;
        nodes[i].next = list;
        list = &nodes[i];
    }
    for (i = 0; i < 20; i = i + 1) {
        list = reversed(list);
        total = total + sum(list);
    }
    return total;
}
