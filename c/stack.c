/* Runs every call on hostile input, on a thread whose stack has as many bytes as the first word says (65,536 where there is none),
 * and says what it answered, how much of the stack was used, the thread's own part included, and how long it took. Below the stack
 * no byte may be touched. Three more words are the figures of include/osc.h, for decoders and steps, for encoders of packets and for
 * the calls on one thing: what is used is to be no more, and at most 1,023 bytes less. It ends with 1 where an answer is another than is
 * due, or a figure. A process stack would not do: an emulator may round a small one up. */
#include <pthread.h>
#include <sys/mman.h>
#include "../include/osc.h"
#include <stdio.h>
#include <stdlib.h>
#include <string.h>
#include <time.h>

enum { GUARD = 65536, TURNS = 20, UNTOUCHED = 0xA5 };

static uint8_t msg[65536], out[65536];
static uint8_t table[OSC_RECORD * 65536];
/* Texts are not ASCII, so that every byte is looked at. */
static const uint8_t source[] = "/\303\251";

/* ---- a call, on a stack of its own */

enum call {
    UDP, TCP, TCP_VEC, TCP2, TCP_VEC2, PORTION, INDEX, ENCODE, ENCODE_TCP, ENCODE_TCP2, STRING, CHECK, LOOK, START, CUE,
    SHIFT_TABLE, TAG_A, TAG_B, UNIX_A, UNIX_B, SHIFT, DIFFERENCE, PAD, VERSION
};

static const char *const names[] = {"udp",         "tcp",         "tcp_vec", "tcp2",   "tcp_vec2", "portion", "index",      "encode",
                                    "encode_tcp",  "encode_tcp2", "string",  "check",  "look",     "start",   "cue",
                                    "shift_table", "tag_a",       "tag_b",   "unix_a", "unix_b",   "shift",   "difference", "pad",
                                    "version"};

/* The call that the thread makes: n is the length of its input, or its number. */
static struct {
    enum call call;
    uint64_t n, answer, more;
    int64_t seconds;
    double us;
} asked;

static uint8_t *stack;
static size_t size;
static unsigned wrong;

/* The three sorts of calls, and the most that one of each used, by which input. */
enum { SORTS = 3, SLACK = 1024 };
static const char *const sorts[SORTS] = {"a decoder or step", "an encoder of packets", "another call"};
static size_t most[SORTS];
static const char *most_name[SORTS];

static int sort_of(enum call call) { return call <= INDEX ? 0 : call <= ENCODE_TCP2 ? 1 : 2; }

static uint64_t once(enum call call, uint64_t n) {
    uint64_t *more = &asked.more;
    switch (call) {
    case UDP: return osc_decode_udp(msg, n, table, sizeof table, 64, more);
    case TCP: return osc_decode_tcp(msg, n, table, sizeof table, 64, more);
    case TCP_VEC: return osc_decode_tcp_vec(msg, n, table, sizeof table, 64, more);
    case TCP2: return osc_decode_tcp2(msg, n, table, sizeof table, 64, more);
    case TCP_VEC2: return osc_decode_tcp_vec2(msg, n, table, sizeof table, 64, more);
    case PORTION: return osc_read_portion(msg, n, table, sizeof table, 64, more);
    case INDEX: return osc_index_step(msg, n, (uint64_t)1 << 40, table, sizeof table, more);
    case ENCODE: return osc_encode(table, sizeof table, n, source, 3, out, sizeof out);
    case ENCODE_TCP: return osc_encode_tcp(table, sizeof table, n, source, 3, out, sizeof out);
    case ENCODE_TCP2: return osc_encode_tcp2(table, sizeof table, n, source, 3, out, sizeof out);
    case STRING: return osc_encode_string(msg, n, out, sizeof out);
    case CHECK: return osc_index_check_step(out, sizeof out, msg, n, (uint64_t)1 << 40);
    case LOOK: return osc_look(table, sizeof table, n);
    case START: return osc_start(table, sizeof table, n);
    case CUE: return osc_cue(table, sizeof table, n, more);
    case VERSION: return osc_version();
    case TAG_A: return osc_tag_a((int64_t)n, 999999999, more);
    case TAG_B: return osc_tag_b((int64_t)n, 999999999, more);
    case UNIX_A: return osc_unix_a(n, &asked.seconds);
    case UNIX_B: return osc_unix_b(n, &asked.seconds);
    case SHIFT: return osc_shift(n, n);
    case DIFFERENCE: return (uint64_t)osc_difference(n, 1);
    case SHIFT_TABLE: return osc_shift_table(table, sizeof table, n, (uint64_t)1 << 31);
    default: return osc_pad(n);
    }
}

static void *work(void *unused) {
    clock_t began = clock();
    for (int i = 0; i < TURNS; i++) asked.answer = once(asked.call, asked.n);
    asked.us = (double)(clock() - began) / CLOCKS_PER_SEC / TURNS * 1e6;
    return unused;
}

/* Makes a call on the stack; its refusal, or that of the frame that ends its stream or index, is to be `due`. */
static void run(const char *name, enum call call, uint64_t n, unsigned due) {
    pthread_attr_t attributes;
    pthread_t thread;
    memset(stack, UNTOUCHED, size);
    asked.call = call;
    asked.n = n;
    if (pthread_attr_init(&attributes) || pthread_attr_setstack(&attributes, stack, size)) exit(2);
    if (pthread_create(&thread, &attributes, work, NULL) || pthread_join(thread, NULL)) exit(3);
    size_t left = 0;
    while (left < size && stack[left] == UNTOUCHED) left++;
    if (most[sort_of(call)] < size - left) {
        most[sort_of(call)] = size - left;
        most_name[sort_of(call)] = name;
    }
    unsigned refusal = call >= SHIFT ? 0 : osc_refusal(asked.answer);
    if ((call == PORTION || call == INDEX) && !refusal) refusal = osc_ended(asked.more);
    printf("%-34s %-11s %5llu: refusal %2u, count %5u, left, used or written %5u, stack %6zu, %8.0f us%s\n", name, names[call],
           (unsigned long long)n, refusal, osc_count(asked.answer), osc_left(asked.answer), size - left, asked.us,
           refusal == due ? "" : ": NOT WHAT IS DUE");
    wrong += refusal != due;
}

/* ---- inputs of decoders, in `msg` */

static size_t put(size_t at, const char *bytes, size_t n) {
    memcpy(msg + at, bytes, n);
    return at + n;
}

static void put_word(uint8_t *to, uint32_t x) {
    for (int i = 0; i < 4; i++) to[i] = (uint8_t)(x >> (24 - 8 * i));
}

static size_t put_u32(size_t at, uint32_t x) {
    put_word(msg + at, x);
    return at + 4;
}

/* n bundles, each in the one before it; the innermost has so many bytes of elements. */
static size_t bundles(size_t at, unsigned n, unsigned inside) {
    for (unsigned i = 0; i < n; i++) {
        at = put(at, "#bundle\0\0\0\0\0\0\0\0\1", 16);
        if (i + 1 < n) at = put_u32(at, 20 * (n - 1 - i) - 4 + inside);
    }
    return at;
}

/* A message with n nested arrays, of which some are closed, and a text and a blob in the innermost. */
static size_t arrays(size_t at, unsigned n, unsigned closed) {
    at = put(at, "/a\0\0,", 5);
    memset(msg + at, '[', n);
    at = put(at + n, "sb", 2);
    memset(msg + at, ']', closed);
    at += closed;
    do msg[at++] = 0;
    while (at % 4 != 0);
    return put(at, "t\303\251t\0\0\0\0\0\0\0\3\1\2\3\0", 16);
}

/* Nested arrays in nested bundles. */
static size_t both(size_t at, unsigned around, unsigned n) {
    unsigned message = (unsigned)arrays(0, n, n);
    at = bundles(at, around, 4 + message);
    return arrays(put_u32(at, message), n, n);
}

/* A bundle of messages with an argument each. */
static size_t behaved(size_t at) {
    at = put(at, "#bundle\0\0\0\0\0\0\0\0\1", 16);
    while (at + 16 < 65500) {
        at = put_u32(at, 12);
        at = put(at, "/a\0\0,i\0\0\0\0\0\5", 12);
    }
    return at;
}

/* Frames of 12 bytes end to end, each with its length but the last, which has this one. */
static size_t frames(uint32_t last) {
    size_t at = 0, before = 0;
    while (at + 12 < sizeof msg) {
        before = at;
        at = put(put_u32(at, 8), "/a\0\0,\0\0\0", 8);
    }
    put_u32(before, last);
    return at;
}

/* A call on one packet, which has its length before it where it is of edition 2; in edition 1 that cuts nothing, so it is 0. */
static void packet(const char *name, enum call call, size_t n, unsigned due) {
    if (call != UDP) put_u32(0, call >= TCP2 ? (uint32_t)n - 4 : 0);
    run(name, call, n, due);
}

/* What a decoder is given, and the step that writes an index, which takes fewer records of a frame. */
static void decode(enum call call) {
    size_t from = call == UDP ? 0 : 4, n;
    packet("a bundle of messages", call, behaved(from), call == INDEX ? OSC_TABLE_FULL : 0);
    packet("64 nested bundles", call, bundles(from, 64, 0), 0);
    packet("3,276 nested bundles", call, bundles(from, 3276, 0), OSC_TOO_DEEP);
    n = bundles(from, 3276, 0);
    msg[n - 9] = 0xFF;
    packet("the same, damaged inside", call, n, OSC_TOO_DEEP);
    n = bundles(from, 64, 0);
    msg[n - 20] = 0xFF;
    packet("64 nested bundles, damaged", call, n, 0);
    packet("64 nested arrays", call, arrays(from, 64, 64), 0);
    packet("63 nested arrays in a bundle", call, both(from, 1, 63), 0);
    packet("32 nested arrays in 32 bundles", call, both(from, 32, 32), 0);
    packet("an array in 63 nested bundles", call, both(from, 63, 1), 0);
    packet("a message in 64 nested bundles", call, both(from, 64, 0), 0);
    packet("an array in 64 nested bundles", call, both(from, 64, 1), OSC_TOO_DEEP);
    packet("900 nested arrays", call, arrays(from, 900, 900), OSC_TOO_DEEP);
    packet("32,000 nested arrays", call, arrays(from, 32000, 32000), OSC_TOO_DEEP);
    packet("32,000 arrays, none closed", call, arrays(from, 32000, 0), 0);
    packet("32,000 arrays, 64 of them closed", call, arrays(from, 32000, 64), 0);
    n = arrays(from, 32000, 32000);
    msg[n - 25] = 'x';
    packet("32,000 arrays, damaged", call, n, OSC_UNKNOWN_TAG);
}

/* Lists of many frames: in edition 1 no length is looked at but for Waiting. */
static void lists(void) {
    run("frames end to end", TCP_VEC, frames(8), 0);
    run("frames end to end", TCP_VEC2, frames(8), 0);
    run("frames end to end", PORTION, frames(8), 0);
    run("frames end to end", INDEX, frames(8), 0);
    run("the last of them unfinished", PORTION, frames(12), 0);
    run("the last of them unfinished", INDEX, frames(12), 0);
    run("the last of them of an odd length", TCP_VEC, frames(6), 0);
    run("the last of them of an odd length", TCP_VEC2, frames(6), OSC_ODD_LENGTH);
    run("the last of them too long", TCP_VEC2, frames(0xFFFFFFFC), OSC_TOO_LONG);
    run("the last of them too long", PORTION, frames(0xFFFFFFFC), OSC_TOO_LONG);
    run("the last of them too long", INDEX, frames(0xFFFFFFFC), OSC_TOO_LONG);
}

/* ---- tables of encoders, in `table` */

static void record(size_t i, uint8_t kind, size_t end, uint32_t a, uint32_t b) {
    uint8_t *to = table + OSC_RECORD * i;
    memset(to, 0, OSC_RECORD);
    to[0] = kind;
    put_word(to + 4, (uint32_t)end);
    put_word(to + 8, a);
    put_word(to + 12, b);
}

/* A message with nested arrays in nested bundles, and a text and a blob in the innermost; answers the count of records. */
static size_t nested(size_t around, size_t n) {
    size_t count = around + 1 + n + 2, i = 0;
    while (i < around) record(i++, '#', count, 0, 1);
    record(i++, '/', count, 0, 3);
    while (i < around + 1 + n) record(i++, '[', count, 0, 0);
    record(i, 's', i + 1, 0, 3);
    record(i + 1, 'b', i + 2, 0, 1);
    return count;
}

/* The same, with the last record damaged. */
static size_t damaged(size_t around, size_t n) {
    size_t count = nested(around, n);
    table[OSC_RECORD * (count - 1)] = 'x';
    return count;
}

static void encode(enum call call) {
    run("64 nested arrays", call, nested(0, 64), 0);
    run("63 nested arrays in a bundle", call, nested(1, 63), 0);
    run("32 nested arrays in 32 bundles", call, nested(32, 32), 0);
    run("64 nested bundles", call, nested(64, 0), 0);
    run("64 nested arrays, damaged", call, damaged(0, 64), OSC_BAD_TABLE);
    run("32 arrays in 32 bundles, damaged", call, damaged(32, 32), OSC_BAD_TABLE);
    run("64 nested bundles, damaged", call, damaged(64, 0), OSC_BAD_TABLE);
    run("65 nested arrays", call, nested(0, 65), OSC_TOO_DEEP);
    run("64 nested arrays in a bundle", call, nested(1, 64), OSC_TOO_DEEP);
    run("900 nested arrays", call, nested(0, 900), OSC_TOO_DEEP);
    run("65,532 nested arrays", call, nested(0, 65532), OSC_TOO_DEEP);
    run("65,532 nested bundles", call, nested(65532, 0), OSC_TOO_DEEP);
    run("32,000 arrays in 32,000 bundles", call, nested(32000, 32000), OSC_TOO_DEEP);
    run("65,532 nested arrays, damaged", call, damaged(0, 65532), OSC_BAD_TABLE);
    run("65,532 nested bundles, damaged", call, damaged(65532, 0), OSC_BAD_TABLE);
}

/* ---- the other calls */

static void others(void) {
    memset(msg, 0xC3, 65530);
    for (size_t i = 1; i < 65530; i += 2) msg[i] = 0xA9;
    run("a text of 65,530 bytes", STRING, 65530, 0);
    run("a text cut in a character", STRING, 65529, OSC_NOT_UTF8);
    nested(0, 65532);
    run("the last record", LOOK, 65534, 0);
    run("the last record", START, 65534, 0);
    run("a record past the last", LOOK, 65536, OSC_BAD_TABLE);
    run("a record past the last", START, 65536, OSC_BAD_TABLE);
    nested(65532, 0);
    run("65,532 nested bundles", SHIFT_TABLE, 65535, 0);
    run("a record past the last", SHIFT_TABLE, 65537, OSC_BAD_TABLE);
    run("a position", PAD, 65533, 0);
    run("the version", VERSION, 0, 0);
    run("rule A's last second", TAG_A, 2085978495, 0);
    run("the second after it", TAG_A, 2085978496, OSC_TOO_LATE);
    run("rule B's last second", TAG_B, 4233462143, 0);
    run("the lowest seconds", TAG_B, (uint64_t)1 << 63, OSC_TOO_EARLY);
    run("the highest tag", UNIX_A, UINT64_MAX, 0);
    run("the immediate tag", UNIX_A, 1, OSC_TOO_EARLY);
    run("the immediate tag", UNIX_B, 1, 0);
    run("the highest tag", SHIFT, UINT64_MAX, 0);
    run("the highest tag", DIFFERENCE, UINT64_MAX, 0);
    memset(table, 0, sizeof table);
    run("the last cue", CUE, sizeof table / OSC_ENTRY - 1, 0);
    run("a cue past the last", CUE, sizeof table / OSC_ENTRY, OSC_BAD_TABLE);
    memcpy(msg, out, sizeof msg);
    run("an index of 65,536 bytes", CHECK, sizeof msg, 0);
    run("the same with a byte too few", CHECK, sizeof msg - 1, OSC_INDEX_DIFFERS);
}

int main(int argc, char **argv) {
    size = argc > 1 ? strtoul(argv[1], NULL, 10) : 65536;
    uint8_t *room = (uint8_t *)mmap(NULL, GUARD + size, PROT_READ | PROT_WRITE, MAP_PRIVATE | MAP_ANONYMOUS, -1, 0);
    if (room == MAP_FAILED || mprotect(room, GUARD, PROT_NONE)) return 2;
    stack = room + GUARD;
    for (int call = UDP; call <= INDEX; call++) decode((enum call)call);
    lists();
    for (int call = ENCODE; call <= ENCODE_TCP2; call++) encode((enum call)call);
    others();
    for (int sort = 0; sort < SORTS; sort++) {
        size_t due = argc > 2 + sort ? strtoul(argv[2 + sort], NULL, 10) : most[sort];
        int fits = most[sort] <= due && due < most[sort] + SLACK;
        printf("%s used at most %zu bytes of the stack (%s)%s\n", sorts[sort], most[sort], most_name[sort],
               fits ? "" : ": include/osc.h HAS ANOTHER FIGURE");
        wrong += !fits;
    }
    printf("on a stack of %zu bytes %u answers or figures were wrong\n", size, wrong);
    return wrong != 0;
}
