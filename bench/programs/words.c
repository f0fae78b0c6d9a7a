/* The words of a text, read fifty times: how many there are, and the longest. */
char text[160] = "Its users put trusted and untrusted code into one image; isolation must not change what a correct program does, and must hold against hostile code.";

int is_letter(char c) {
    return c >= 'a' && c <= 'z' || c >= 'A' && c <= 'Z';
}

long main() {
    long words = 0;
    long longest = 0;
    long length;
    char *at;
    int round;
    for (round = 0; round < 50; round = round + 1) {
        at = text;
        while (*at) {
            length = 0;
            while (is_letter(*at)) {
                length = length + 1;
                at = at + 1;
            }
            if (length > 0) words = words + 1;
            if (length > longest) longest = length;
            if (*at) at = at + 1;
        }
    }
    return words * 100 + longest;
}
