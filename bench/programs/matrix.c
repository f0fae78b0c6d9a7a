/* The product of two matrices of 32 rows and columns, and the sum of its elements. */
long a[32][32];
long b[32][32];
long c[32][32];

void fill() {
    int i;
    int j;
    for (i = 0; i < 32; i = i + 1) {
        for (j = 0; j < 32; j = j + 1) {
            a[i][j] = i + 2 * j;
            b[i][j] = i - j;
        }
    }
}

void multiply() {
    int i;
    int j;
    int k;
    long sum;
    for (i = 0; i < 32; i = i + 1) {
        for (j = 0; j < 32; j = j + 1) {
            sum = 0;
            for (k = 0; k < 32; k = k + 1) sum = sum + a[i][k] * b[k][j];
            c[i][j] = sum;
        }
    }
}

long main() {
    long total = 0;
    int i;
    int j;
    fill();
    multiply();
    for (i = 0; i < 32; i = i + 1) {
        for (j = 0; j < 32; j = j + 1) total = total + c[i][j] * (i + 1);
    }
    return total;
}
