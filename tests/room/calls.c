/* The session's proved calls as a program. Each buffer lent to a call ends flush against a page that may not be touched, or begins flush behind one, so an
   access outside of what is lent ends the program. Orders come on standard input and a reply to each call goes to standard output, both as src/orders.rs has
   them. The kit has a C library and no headers. */
typedef unsigned char byte;
typedef unsigned long size;

long read(int file, void *to, size bytes);
long write(int file, const void *from, size bytes);
void *mmap(void *at, size bytes, int access, int flags, int file, long from);
int mprotect(void *at, size bytes, int access);
void *memcpy(void *to, const void *from, size bytes);
int memcmp(const void *one, const void *other, size bytes);
unsigned alarm(unsigned seconds);
void exit(int status);

size compassflare_begin(const byte *, size, const byte *, size, const byte *, size, byte *, size);
size compassflare_event(byte *, size, const byte *, size, byte *, size, byte *, size, byte *, size);
size compassflare_run(byte *, size, const byte *, size, byte *, size, byte *, size, byte *, size, byte *, size);
size compassflare_finish(const byte *, size, byte *, size);

/* 64 KB: no machine has larger pages. A call that takes so long does not end. */
enum { PAGE = 65536, PATIENCE = 60 };
enum { SESSION, ELEMENTS, NODES, OUT, COUNTS, BYTES, BUFFERS };
enum { BEGIN, EVENT, RUN, FINISH, SCRIBBLE, FILL };
/* Where a session has the number that says whether it is stopped. */
enum { STOPPED = 308 };

static struct buffer {
    /* What it holds, also past what is lent. */
    byte held[PAGE];
    /* The page between the two that may not be touched, and the part of it that is lent. */
    byte *page, *at;
    size bytes;
} buffers[BUFFERS];

static struct {
    size answer;
    /* One past the last byte that a call changed, or 0. */
    unsigned changed[BUFFERS];
    /* The first byte of the session that it changed, if it did. */
    unsigned from;
    /* The number at STOPPED before the call and after it. */
    unsigned stopped[2];
    unsigned listed;
    byte counts[16];
} reply;

static int take(void *to, size bytes) {
    static byte input[PAGE];
    static size at, end;
    for (byte *next = to; bytes; at++, bytes--) {
        if (at == end) {
            long got = read(0, input, sizeof input);
            if (got <= 0) return 0;
            at = 0;
            end = got;
        }
        *next++ = input[at];
    }
    return 1;
}

static void give(const void *from, size bytes) {
    for (const byte *next = from; bytes;) {
        long gone = write(1, next, bytes);
        if (gone <= 0) exit(1);
        next += gone;
        bytes -= gone;
    }
}

static void prepare(struct buffer *b) {
    byte *pages = mmap(0, 3 * PAGE, 3, 0x22, -1, 0);
    if (pages == (void *)-1 || mprotect(pages, PAGE, 0) || mprotect(pages + 2 * PAGE, PAGE, 0)) exit(2);
    b->page = pages + PAGE;
}

/* What is lent stays where it is while its place and its length do. */
static byte *lend(struct buffer *b, size bytes, int behind) {
    byte *at = behind ? b->page : b->page + PAGE - bytes;
    if (at != b->at || bytes != b->bytes) memcpy(at, b->held, bytes);
    b->at = at;
    b->bytes = bytes;
    return at;
}

static unsigned unchanged(const struct buffer *b) {
    size at = 0;
    while (at < b->bytes && b->at[at] == b->held[at]) at++;
    return at;
}

static unsigned changed(struct buffer *b) {
    size end = b->bytes;
    if (!memcmp(b->at, b->held, end)) return 0;
    while (end > 256 && !memcmp(b->at + end - 256, b->held + end - 256, 256)) end -= 256;
    while (b->at[end - 1] == b->held[end - 1]) end--;
    memcpy(b->held, b->at, end);
    return end;
}

static void fill(byte *to, size bytes, size seed) {
    for (size at = 0; at < bytes; at++) {
        seed = seed * 6364136223846793005ul + 1442695040888963407ul;
        to[at] = seed >> 56;
    }
}

static size call(unsigned kind, const unsigned *bytes, unsigned behind) {
    byte *at[BUFFERS];
    for (int b = 0; b < BUFFERS; b++) at[b] = lend(&buffers[b], bytes[b], behind >> b & 1);
#define LENT(b) at[b], bytes[b]
    switch (kind) {
    case BEGIN: return compassflare_begin(LENT(BYTES), LENT(ELEMENTS), LENT(NODES), LENT(SESSION));
    case EVENT: return compassflare_event(LENT(SESSION), LENT(BYTES), LENT(ELEMENTS), LENT(NODES), LENT(OUT));
    case RUN: return compassflare_run(LENT(SESSION), LENT(BYTES), LENT(ELEMENTS), LENT(NODES), LENT(OUT), LENT(COUNTS));
    default: return compassflare_finish(LENT(SESSION), LENT(COUNTS));
    }
}

/* How many list records the answer says there are, as far as they fit. */
static unsigned listed(unsigned kind) {
    size records = 0;
    if (kind == EVENT && reply.answer % 256 == 0) records = reply.answer / 256;
    if (kind == RUN) memcpy(&records, reply.counts + 8, 8);
    size most = buffers[OUT].bytes / 4;
    return records < most ? records : most;
}

int main(void) {
    for (int b = 0; b < BUFFERS; b++) prepare(&buffers[b]);
    /* What to do; how the buffers lie, or which one; and a length for each, or where to write, how much and a seed. */
    for (struct { unsigned kind, which, bytes[BUFFERS]; } order; take(&order, sizeof order);) {
        struct buffer *b = &buffers[order.kind < SCRIBBLE ? BYTES : order.which];
        b->at = 0;
        if (order.kind == FILL) {
            fill(b->held + order.bytes[0], order.bytes[1], order.bytes[2]);
            continue;
        }
        if (order.kind == SCRIBBLE) {
            if (!take(b->held + order.bytes[0], order.bytes[1])) return 1;
            continue;
        }
        if (!take(b->held, order.bytes[BYTES])) return 1;
        struct buffer *session = &buffers[SESSION];
        memcpy(&reply.stopped[0], session->held + STOPPED, 4);
        alarm(PATIENCE);
        reply.answer = call(order.kind, order.bytes, order.which);
        alarm(0);
        reply.from = unchanged(session);
        for (int c = 0; c < BUFFERS; c++) reply.changed[c] = changed(&buffers[c]);
        memcpy(&reply.stopped[1], session->held + STOPPED, 4);
        memcpy(reply.counts, buffers[COUNTS].held, sizeof reply.counts);
        reply.listed = listed(order.kind);
        give(&reply, sizeof reply);
        give(buffers[OUT].held, 4 * reply.listed);
    }
}
