long main() {
    long byte;
    byte = __getc();
    while (byte != -1) {
        __putc(byte);
        byte = __getc();
    }
    __out(1, 0, 65535);
    __out(1, 1, 7);
    __putc('0' + __in(1, 1));
    __out(1, 0, 65536);
    __out(1, 1, 7);
    __putc('0' + __in(1, 1));
    __putc('0' + __in(2, 0));
    __putc('0' + __in(2, 0));
    return 1 / (byte + 1);
}
