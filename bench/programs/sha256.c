/* SHA-256 (FIPS 180-4) of 1,024 bytes; the first word of the digest. The round constants and the
   initial values are the first bits of the fractions of the roots of primes, found by division. */
unsigned rounds[64];
unsigned state[8];
unsigned w[64];
unsigned char message[1088];

unsigned rotated(unsigned x, int n) {
    return (x >> n) | (x << (32 - n));
}

/* Whether the square (power 2) or the cube (power 3) of t / 2^32 is below p. */
int is_below(unsigned long t, int power, unsigned long p) {
    unsigned long hi = t >> 32;
    unsigned long lo = t & 0xffffffff;
    unsigned long low = lo * lo;
    unsigned long middle = (low >> 32) + 2 * hi * lo;
    unsigned long high = hi * hi + (middle >> 32);
    unsigned long sum;
    if (power == 2) return high < p;
    low = low & 0xffffffff;
    middle = middle & 0xffffffff;
    sum = (low * lo >> 32) + middle * lo;
    sum = (sum >> 32) + ((sum & 0xffffffff) + low * hi >> 32);
    sum = sum + high * lo + middle * hi;
    return high * hi + (sum >> 32) < p;
}

/* The first 32 bits of the fraction of the square root (power 2) or cube root (power 3) of p. */
unsigned fraction(unsigned long p, int power) {
    unsigned long root = 0;
    unsigned long bit = 0x2000000000;
    while (bit) {
        if (is_below(root | bit, power, p)) root = root | bit;
        bit = bit >> 1;
    }
    return root;
}

void prepare() {
    unsigned long p = 2;
    int found = 0;
    unsigned long d;
    int prime;
    while (found < 64) {
        prime = 1;
        for (d = 2; d * d <= p; d = d + 1) {
            if (p % d == 0) prime = 0;
        }
        if (prime) {
            rounds[found] = fraction(p, 3);
            if (found < 8) state[found] = fraction(p, 2);
            found = found + 1;
        }
        p = p + 1;
    }
}

void block(unsigned char *bytes) {
    unsigned a; unsigned b; unsigned c; unsigned d;
    unsigned e; unsigned f; unsigned g; unsigned h;
    unsigned s; unsigned t; unsigned u;
    int i;
    for (i = 0; i < 16; i = i + 1) {
        w[i] = ((unsigned)bytes[4 * i] << 24) | ((unsigned)bytes[4 * i + 1] << 16)
            | ((unsigned)bytes[4 * i + 2] << 8) | (unsigned)bytes[4 * i + 3];
    }
    for (i = 16; i < 64; i = i + 1) {
        s = rotated(w[i - 15], 7) ^ rotated(w[i - 15], 18) ^ (w[i - 15] >> 3);
        t = rotated(w[i - 2], 17) ^ rotated(w[i - 2], 19) ^ (w[i - 2] >> 10);
        w[i] = w[i - 16] + s + w[i - 7] + t;
    }
    a = state[0]; b = state[1]; c = state[2]; d = state[3];
    e = state[4]; f = state[5]; g = state[6]; h = state[7];
    for (i = 0; i < 64; i = i + 1) {
        s = rotated(e, 6) ^ rotated(e, 11) ^ rotated(e, 25);
        t = h + s + ((e & f) ^ (~e & g)) + rounds[i] + w[i];
        s = rotated(a, 2) ^ rotated(a, 13) ^ rotated(a, 22);
        u = s + ((a & b) ^ (a & c) ^ (b & c));
        h = g; g = f; f = e; e = d + t;
        d = c; c = b; b = a; a = t + u;
    }
    state[0] = state[0] + a; state[1] = state[1] + b; state[2] = state[2] + c; state[3] = state[3] + d;
    state[4] = state[4] + e; state[5] = state[5] + f; state[6] = state[6] + g; state[7] = state[7] + h;
}

long main() {
    int i;
    prepare();
    for (i = 0; i < 1024; i = i + 1) message[i] = i * 3;
    message[1024] = 128;
    /* 8,192 bits, big-endian in the last eight bytes */
    message[1086] = 32;
    for (i = 0; i < 1088; i = i + 64) block(message + i);
    return state[0];
}
