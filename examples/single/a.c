long scores[3];

long main() {
    scores[0] = 20;
    scores[1] = 15;
    scores[2] = 7;
    return __gate(total, &scores[0], 3);
}
