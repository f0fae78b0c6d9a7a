/* 2,000 drawn numbers, sorted; a sum that tells their order. */
int numbers[2000];

void sort(int *a, long low, long high) {
    long i = low;
    long j = high;
    int pivot = a[(low + high) / 2];
    int kept;
    while (i <= j) {
        while (a[i] < pivot) i = i + 1;
        while (a[j] > pivot) j = j - 1;
        if (i <= j) {
            kept = a[i];
            a[i] = a[j];
            a[j] = kept;
            i = i + 1;
            j = j - 1;
        }
    }
    if (low < j) sort(a, low, j);
    if (i < high) sort(a, i, high);
}

long main() {
    unsigned drawn = 1;
    long total = 0;
    int i;
    for (i = 0; i < 2000; i = i + 1) {
        drawn = drawn * 1103515245 + 12345;
        numbers[i] = drawn >> 8;
    }
    sort(numbers, 0, 1999);
    for (i = 0; i < 2000; i = i + 1) {
        if (i > 0 && numbers[i - 1] > numbers[i]) return -1;
        total = total + (long)numbers[i] * i;
    }
    return total;
}
