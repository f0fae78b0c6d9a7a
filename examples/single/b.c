__entry long total(long *p, long count) {
    long i;
    long sum;
    i = 0;
    sum = 0;
    while (i < count) {
        sum = sum + p[i];
        i = i + 1;
    }
    return sum;
}
