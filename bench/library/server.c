// Calls the proved library's two functions for a program that cannot link them (src/served.rs). Standard input is a
// connection to it: a message comes, the calls it asks for are made on memory within it, and all of it goes back, until
// the connection ends. The toolchain has no headers, so what is used of the C library is declared here.

typedef unsigned char byte;
typedef unsigned long number;

long read(int file, void *to, number size);
long write(int file, const void *from, number size);

byte hamzulaph_decide(const byte *bytes, number bytes_len, int *nums, number nums_len, int *dens, number dens_len,
                      byte *refusal, number *figure);
number hamzulaph_list_row(byte *buf, number buf_len, number at, const int *nums, number nums_len, const int *dens,
                          number dens_len, number t, byte *refusal);

// What is lent: at which byte of the message it begins, and how many bytes or places it has.
struct slice {
    number start, length;
};

struct call {
    number lists_a_row;
    struct slice bytes, nums, dens;
    number at, row;               // of a row to list
    number figure, word, refusal; // the answer; of the refusal the first byte
};

struct message {
    number size, calls;
    struct call call[];
};

static number memory[1 << 17];
static byte *const start = (byte *)memory;
static struct message *const message = (struct message *)memory;

static int receive(void) {
    number got = 0;
    while (got < sizeof message->size || got < message->size) {
        long more = read(0, start + got, sizeof memory - got);
        if (more <= 0) return 0;
        got += more;
    }
    return 1;
}

static int send(void) {
    number sent = 0, size = message->size;
    while (sent < size) {
        long more = write(0, start + sent, size - sent);
        if (more <= 0) return 0;
        sent += more;
    }
    return 1;
}

static void make(struct call *c) {
    byte *bytes = start + c->bytes.start, *refusal = (byte *)&c->refusal;
    int *nums = (int *)(start + c->nums.start), *dens = (int *)(start + c->dens.start);
    number bytes_len = c->bytes.length, nums_len = c->nums.length, dens_len = c->dens.length;
    if (c->lists_a_row)
        c->figure = hamzulaph_list_row(bytes, bytes_len, c->at, nums, nums_len, dens, dens_len, c->row, refusal);
    else
        c->word = hamzulaph_decide(bytes, bytes_len, nums, nums_len, dens, dens_len, refusal, &c->figure);
}

int main(void) {
    while (receive()) {
        for (number i = 0; i < message->calls; i++) make(&message->call[i]);
        if (!send()) return 1;
    }
    return 0;
}
