// One call of the desk in thirteen situations. Without an argument it makes each call once, between two calls of mark(),
// which a trace shows; with an argument it prints the ns of each. It declares the functions of the C library and the numbers
// that it uses itself, because it is also compiled for x86-64 on machines that have no headers for x86-64.
typedef unsigned char byte;
typedef unsigned int word;
typedef unsigned long size;

extern word step(byte *board, size board_len, const byte *record, size record_len, byte *answer, size answer_len);

struct moment {
    long seconds, nanoseconds;
};
int clock_gettime(int clock, struct moment *now);
int printf(const char *format, ...);
void exit(int status);
void *memcpy(void *to, const void *from, size n);

enum { BOARD = 49216, RECORD = 24, ANSWER = 144, HEAD = 64, PART = 768, DISK = 3, TURNS = 1000000, RUNS = 7 };
enum { OPEN = 1, CLAIM = 2, RELEASE = 3 };
enum { ADD_PROMISED = 1, SET_STATE = 3, READ_USED = 4, READ_STATE = 6, NO_METHOD = 9 };

static byte board[BOARD], saved[PART], answer[ANSWER], record[RECORD];

static byte *const part = board + HEAD + PART * DISK;

static void put(int at, word x) {
    for (int i = 0; i < 4; i++) record[at + i] = (byte)(x >> 8 * i);
}

// A record at second 0: disk, kind, method and the words at 12, 16 and 20.
static void ask(int kind, int disk, int method, word twelve, word sixteen, word twenty) {
    record[0] = 0x52, record[1] = 0x42, record[2] = (byte)kind, record[3] = (byte)disk, record[4] = (byte)method;
    record[5] = kind == CLAIM ? 5 : 0;
    put(12, twelve), put(16, sixteen), put(20, twenty);
}

static word call(void) { return step(board, BOARD, record, RECORD, answer, ANSWER); }

// A call that prepares the board, and must be accepted.
static void ready(int kind, int method, word twelve, word sixteen, word twenty) {
    ask(kind, DISK, method, twelve, sixteen, twenty);
    word code = call();
    if (code > 3) {
        printf("the board was not made ready: code %u\n", code);
        exit(1);
    }
}

// The disk, opened on an empty board.
static void fresh(void) {
    for (int i = 0; i < BOARD; i++) board[i] = 0;
    ready(OPEN, 0, 0, 1000, 1000);
}

__attribute__((noinline)) void mark(void) { __asm__ volatile(""); }

// Called in place of step, to measure what the loop takes without a call.
__attribute__((noinline)) word nothing(byte *b, size bl, const byte *r, size rl, byte *a, size al) {
    __asm__ volatile("" ::"r"(b), "r"(r), "r"(a));
    return (word)(bl + rl + al);
}

typedef word (*stepping)(byte *, size, const byte *, size, byte *, size);

// In processor time, so that other programs do not count.
static double ns(stepping f) {
    double least = 1e9;
    for (int run = 0; run < RUNS; run++) {
        struct moment from, to;
        clock_gettime(2, &from);
        for (int i = 0; i < TURNS; i++) {
            memcpy(part, saved, PART);
            f(board, BOARD, record, RECORD, answer, ANSWER);
        }
        clock_gettime(2, &to);
        double took = ((to.seconds - from.seconds) * 1e9 + (to.nanoseconds - from.nanoseconds)) / TURNS;
        if (took < least) least = took;
    }
    return least;
}

static int timed;

// Makes the call on the disk as it stands, and puts the part back.
__attribute__((noinline)) static void measure(const char *name, word code) {
    memcpy(saved, part, PART);
    mark();
    word got = call();
    mark();
    memcpy(part, saved, PART);
    if (got != code) {
        printf("%s: code %u, not %u\n", name, got, code);
        exit(1);
    }
    if (timed) printf("%7.1f ns  %s\n", ns(step) - ns(nothing), name);
    else printf("%s\n", name);
}

int main(int words, char **word_at) {
    (void)word_at;
    timed = words > 1;
    fresh();
    ask(9, DISK, 0, 0, 0, 0);
    measure("refusal 10", 10);
    ask(CLAIM, DISK + 1, READ_USED, 0, 0, 100);
    measure("refusal 13", 13);
    ask(CLAIM, DISK, NO_METHOD, 0, 0, 100);
    measure("refusal 16, idle disk", 16);
    ask(CLAIM, DISK, READ_USED, 0, 0, 100);
    measure("reading granted, idle disk", 0);
    ready(CLAIM, READ_USED, 0, 0, 100);
    ready(CLAIM, READ_USED, 0, 0, 100);
    ask(CLAIM, DISK, READ_USED, 0, 0, 100);
    measure("reading granted, 2 active", 0);
    ask(CLAIM, DISK, ADD_PROMISED, 0, 5, 1);
    measure("add granted, 2 active", 0);
    ready(CLAIM, SET_STATE, 0, 1, 0);
    ask(CLAIM, DISK, READ_STATE, 0, 0, 0);
    measure("reading waits, 3 active", 1);
    ready(CLAIM, READ_STATE, 0, 0, 0);
    ready(CLAIM, READ_STATE, 0, 0, 0);
    ask(RELEASE, DISK, 0, 1, 0, 0);
    measure("release, 3 active, 2 waiting, no grant", 2);
    ask(RELEASE, DISK, 0, 3, 0, 0);
    measure("release, 3 active, 2 waiting, 2 grants", 2);

    fresh();
    for (int i = 0; i < 8; i++) ready(CLAIM, READ_USED, 0, 0, 100);
    ask(CLAIM, DISK, NO_METHOD, 0, 0, 100);
    measure("refusal 16, 8 readings active", 16);
    ask(CLAIM, DISK, READ_USED, 0, 0, 100);
    measure("reading waits, 8 readings active", 1);

    fresh();
    ready(CLAIM, READ_USED, 0, 0, 100);
    ready(CLAIM, SET_STATE, 0, 1, 0);
    for (int i = 0; i < 8; i++) ready(CLAIM, READ_STATE, 0, 0, 0);
    ask(CLAIM, DISK, NO_METHOD, 0, 0, 100);
    measure("refusal 16, 2 active, 8 waiting", 16);
    ask(RELEASE, DISK, 0, 1, 0, 0);
    measure("release, 2 active, 8 waiting, no grant", 2);
    return 0;
}
