/* Reads at most 64 bytes of the input, has them sorted by another library, and puts them out. */
__shared(*) char text[64];

long main() {
    long n = 0;
    int c = __getc();
    while (c >= 0 && n < 64) {
        text[n] = c;
        n = n + 1;
        c = __getc();
    }
    __gate(sort, text, n);
    for (c = 0; c < n; c = c + 1)
        __putc(text[c]);
    return n;
}
