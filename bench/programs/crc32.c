/* The CRC-32 of 8,192 bytes, bit by bit. */
unsigned char text[8192];

unsigned crc_of(unsigned char *bytes, int length) {
    unsigned crc = 0xffffffff;
    int i;
    int bit;
    for (i = 0; i < length; i = i + 1) {
        crc = crc ^ bytes[i];
        for (bit = 0; bit < 8; bit = bit + 1) {
            if (crc & 1) crc = (crc >> 1) ^ 0xedb88320;
            else crc = crc >> 1;
        }
    }
    return ~crc;
}

long main() {
    int i;
    for (i = 0; i < 8192; i = i + 1) text[i] = i * 7 + (i >> 5);
    return crc_of(text, 8192);
}
