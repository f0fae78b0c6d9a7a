/* An interpreter's loop: a program of eight instructions sums the numbers up to 3,000. */
struct instruction {
    char op;
    char to;
    char from;
    long number;
};

struct instruction code[8];
long registers[4];

void set(int at, int op, int to, int from, long number) {
    code[at].op = op;
    code[at].to = to;
    code[at].from = from;
    code[at].number = number;
}

long interpret() {
    long at = 0;
    struct instruction *i;
    while (1) {
        i = &code[at];
        at = at + 1;
        if (i->op == 0) return registers[i->from];
        else if (i->op == 1) registers[i->to] = i->number;
        else if (i->op == 2) registers[i->to] = registers[i->to] + registers[i->from];
        else if (i->op == 3) registers[i->to] = registers[i->to] - i->number;
        else if (i->op == 4) {
            if (registers[i->from] != 0) at = i->number;
        }
    }
}

long main() {
    set(0, 1, 0, 0, 0);
    set(1, 1, 1, 0, 3000);
    set(2, 2, 0, 1, 0);
    set(3, 3, 1, 0, 1);
    set(4, 4, 0, 1, 2);
    set(5, 0, 0, 0, 0);
    return interpret();
}
