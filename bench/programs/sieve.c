/* How many primes there are below 20,000. */
char composite[20000];

long main() {
    long count = 0;
    long i;
    long j;
    for (i = 2; i < 20000; i = i + 1) {
        if (!composite[i]) {
            count = count + 1;
            for (j = i + i; j < 20000; j = j + i) composite[j] = 1;
        }
    }
    return count;
}
