/* Sorts n bytes by insertion. */
__entry void sort(char *p, long n) {
    long i;
    long j;
    char c;
    for (i = 1; i < n; i = i + 1) {
        c = p[i];
        for (j = i; j > 0 && p[j - 1] > c; j = j - 1)
            p[j] = p[j - 1];
        p[j] = c;
    }
}
