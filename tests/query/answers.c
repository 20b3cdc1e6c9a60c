/* The proved query check as a program, so that it can be asked where only an emulator runs its code. Queries come on standard input, each after
   its length in two bytes, high one first; the check's answers go to standard output, each in four. The kit has a C library and no headers. */
int getchar(void);
int putchar(int byte);
unsigned compassflare_check(const unsigned char *query, unsigned long bytes);

int main(void) {
    static unsigned char query[65535];
    for (int high; (high = getchar()) >= 0;) {
        int bytes = high << 8 | getchar();
        for (int at = 0; at < bytes; at++) query[at] = getchar();
        unsigned answer = compassflare_check(query, bytes);
        for (int shift = 24; shift >= 0; shift -= 8) putchar(answer >> shift & 255);
    }
}
