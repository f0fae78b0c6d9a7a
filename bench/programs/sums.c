/* Sums of ints and of shorts. */
int ints[1000];
short shorts[1000];

long main() {
    long total = 0;
    int sum = 0;
    short narrow = 0;
    int i;
    int round;
    for (i = 0; i < 1000; i = i + 1) {
        ints[i] = i * 77 - 31000;
        shorts[i] = i * 131;
    }
    for (round = 0; round < 20; round = round + 1) {
        for (i = 0; i < 1000; i = i + 1) {
            sum = sum + ints[i];
            narrow = narrow + shorts[i];
            total = total + ints[i] - shorts[i];
        }
    }
    return total + sum + narrow;
}
