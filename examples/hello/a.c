void main() {
    __putc(72);
    __putc(101);
    __putc(108);
    __putc(108);
    __putc(111);
    __putc(44);
    __putc(32);
    __putc(70);
    __putc(108);
    __putc(101);
    __putc(120);
    __putc(79);
    __putc(83);
    __putc(33);
    __putc(10);
    return;
}
