// Decides each problem of a file so many times, for the emulator to count the instructions (src/emulated.rs): counted TIMES < FILE
// Before each problem stands its length in two bytes, the higher first. The toolchain has no headers, so what is used of the C
// library is declared here.

typedef unsigned char byte;
typedef unsigned long number;

long read(int file, void *to, number size);

byte hamzulaph_decide(const byte *bytes, number bytes_len, int *nums, number nums_len, int *dens, number dens_len,
                      byte *refusal, number *figure);

enum { PLACES = 4160 };

static byte file[1 << 20];
static int nums[PLACES], dens[PLACES];

static number load(void) {
    number size = 0;
    for (long more; (more = read(0, file + size, sizeof file - size)) > 0;) size += more;
    return size;
}

int main(int words, char **word) {
    number size = load(), figure;
    byte refusal;
    for (char times = words > 1 ? *word[1] : '0'; times > '0'; times--)
        for (number at = 0; at + 2 <= size;) {
            number length = 256 * file[at] + file[at + 1];
            hamzulaph_decide(file + at + 2, length, nums, PLACES, dens, PLACES, &refusal, &figure);
            at += 2 + length;
        }
    return 0;
}
