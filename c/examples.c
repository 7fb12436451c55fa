/* Runs document 01's examples, cases of its refusals, and edition 2 of streams, through every function of include/osc.h, and
 * compares. Each slice is an allocation of exactly its length, so that a memory checker sees a read or a write past it. It ends
 * with 1 where something differs. It compiles as C99 and as C++17. */
#include "../include/osc.h"
#include <stdio.h>
#include <stdlib.h>
#include <string.h>

static int passed, failed;

static void same(const char *name, uint64_t got, uint64_t due) {
    if (got == due) {
        passed++;
        return;
    }
    failed++;
    printf("%s: %016llX in place of %016llX\n", name, (unsigned long long)got, (unsigned long long)due);
}

/* A copy of n bytes in an allocation of its own. */
static uint8_t *copy(const uint8_t *from, size_t n) {
    uint8_t *p = (uint8_t *)malloc(n ? n : 1);
    if (!p) exit(2);
    if (n) memcpy(p, from, n);
    return p;
}

/* A buffer of n bytes, all 0xAA. */
static uint8_t *blank(size_t n) {
    uint8_t *p = (uint8_t *)malloc(n ? n : 1);
    if (!p) exit(2);
    memset(p, 0xAA, n);
    return p;
}

/* Bytes from digits; spaces are passed over. */
static size_t bytes_of(const char *hex, uint8_t *to) {
    size_t n = 0;
    unsigned digit, high = 0, half = 0;
    for (; *hex; hex++) {
        if (*hex == ' ') continue;
        digit = (unsigned)(*hex <= '9' ? *hex - '0' : *hex - 'A' + 10);
        if (half) to[n++] = (uint8_t)(high * 16 + digit);
        high = digit;
        half = !half;
    }
    return n;
}

/* The first bytes of a buffer of `room` bytes are these, and the others are 0xAA still. */
static void holds(const char *name, const uint8_t *buffer, size_t room, const uint8_t *due, size_t n) {
    size_t i;
    uint64_t wrong = 0;
    for (i = 0; i < room; i++) wrong += buffer[i] != (i < n ? due[i] : 0xAA);
    same(name, wrong, 0);
}

enum call { UDP, TCP, TCP_VEC, TCP2, TCP_VEC2 };

static uint64_t decode(enum call call, const uint8_t *msg, size_t n, uint8_t *table, size_t room, uint64_t depth,
                       uint64_t *more) {
    *more = 0xAAAAAAAAAAAAAAAAu;
    switch (call) {
    case UDP: return osc_decode_udp(msg, n, table, room, depth, more);
    case TCP: return osc_decode_tcp(msg, n, table, room, depth, more);
    case TCP_VEC: return osc_decode_tcp_vec(msg, n, table, room, depth, more);
    case TCP2: return osc_decode_tcp2(msg, n, table, room, depth, more);
    default: return osc_decode_tcp_vec2(msg, n, table, room, depth, more);
    }
}

/* A decoder's answer, in its parts, all that it says beside it, and its whole table, for which there are `room` bytes. */
static void decodes_beside(const char *name, enum call call, const char *hex, size_t room, uint64_t depth, unsigned refusal,
                           uint64_t beside, uint32_t left, const char *table_hex) {
    uint8_t bytes[256], due[256];
    size_t n = bytes_of(hex, bytes), m = bytes_of(table_hex, due);
    uint8_t *msg = copy(bytes, n), *table = blank(room);
    uint64_t more, answer = decode(call, msg, n, table, room, depth, &more);
    same(name, osc_refusal(answer), refusal);
    same(name, more, beside);
    same(name, osc_frame(more), beside >> 48);
    same(name, osc_field(more), beside >> 32 & 0xFFFFu);
    same(name, osc_dirty(more), beside & 0xFFFFFFFFu);
    same(name, (uint64_t)osc_stopped(answer), refusal != 0 && left != 0);
    same(name, osc_count(answer), m / OSC_RECORD);
    same(name, osc_left(answer), left);
    holds(name, table, room, due, m);
    free(msg);
    free(table);
}

/* The same where no field was short and all padding is zero. */
static void decodes_in(const char *name, enum call call, const char *hex, size_t room, uint64_t depth, unsigned refusal,
                       uint32_t left, const char *table_hex) {
    decodes_beside(name, call, hex, room, depth, refusal, 0, left, table_hex);
}

/* The same with room for some records. */
static void decodes(const char *name, enum call call, const char *hex, size_t records, uint64_t depth, unsigned refusal,
                    uint32_t left, const char *table_hex) {
    decodes_in(name, call, hex, OSC_RECORD * records, depth, refusal, left, table_hex);
}

/* What a decoder refuses. */
static void refuses(const char *name, enum call call, const char *hex, unsigned refusal) {
    decodes(name, call, hex, 8, 64, refusal, 0, "");
}

/* What a decoder refuses for a field that was short, and where that field began. */
static void is_short(const char *name, enum call call, const char *hex, unsigned refusal, uint32_t field) {
    decodes_beside(name, call, hex, 8 * OSC_RECORD, 64, refusal, (uint64_t)field << 32, 0, "");
}

/* What a decoder accepts, and how many padding bytes were not zero. */
static void is_dirty(const char *name, enum call call, const char *hex, uint32_t dirty, uint32_t left, const char *table_hex) {
    decodes_beside(name, call, hex, 8 * OSC_RECORD, 64, 0, dirty, left, table_hex);
}

/* Where a list stops: why its frame is refused and where that begins; beside that the bytes left are those from there on. */
static void stops_beside(const char *name, const char *hex, size_t records, uint64_t depth, unsigned refusal, uint32_t frame,
                         uint64_t beside, const char *table_hex) {
    uint8_t bytes[256];
    uint32_t left = (uint32_t)bytes_of(hex, bytes) - frame;
    decodes_beside(name, TCP_VEC2, hex, OSC_RECORD * records, depth, refusal, (uint64_t)frame << 48 | beside, left, table_hex);
}

/* The same where no field was short and all padding is zero. */
static void stops(const char *name, const char *hex, unsigned refusal, uint32_t frame, const char *table_hex) {
    stops_beside(name, hex, 8, 64, refusal, frame, 0, table_hex);
}

/* What a step over a stream answers, in its parts, all that it says beside it, and its whole table, with room for some records. */
static void steps_beside(const char *name, const char *hex, size_t records, uint64_t depth, unsigned refusal, uint32_t used,
                         uint64_t beside, const char *table_hex) {
    uint8_t bytes[256], due[256];
    size_t n = bytes_of(hex, bytes), m = bytes_of(table_hex, due), room = OSC_RECORD * records;
    uint8_t *msg = copy(bytes, n), *table = blank(room);
    uint64_t more = 0xAAAAAAAAAAAAAAAAu, answer = osc_read_portion(msg, n, table, room, depth, &more);
    same(name, osc_refusal(answer), refusal);
    same(name, osc_count(answer), m / OSC_RECORD);
    same(name, osc_used(answer), used);
    same(name, more, beside);
    same(name, osc_ended(more), beside >> 48);
    same(name, osc_field(more), beside >> 32 & 0xFFFFu);
    same(name, osc_dirty(more), beside & 0xFFFFFFFFu);
    holds(name, table, room, due, m);
    free(msg);
    free(table);
}

/* A step that reads on. */
static void steps(const char *name, const char *hex, uint32_t used, const char *table_hex) {
    steps_beside(name, hex, 8, 64, 0, used, 0, table_hex);
}

/* A step after which the frame is refused that ends the stream. */
static void ends(const char *name, const char *hex, unsigned ended, uint32_t used, const char *table_hex) {
    steps_beside(name, hex, 8, 64, 0, used, (uint64_t)ended << 48, table_hex);
}

/* A step that is refused: no byte is used, nothing is said beside it, and the table is as it was. */
static void steps_not(const char *name, const char *hex, size_t records, uint64_t depth, unsigned refusal) {
    steps_beside(name, hex, records, depth, refusal, 0, 0, "");
}

/* The encoders of packets: 0, or the edition of a stream. */
static uint64_t encode(int edition, const uint8_t *table, size_t n, uint64_t count, const uint8_t *source, size_t len, uint8_t *out,
                       size_t room) {
    switch (edition) {
    case 0: return osc_encode(table, n, count, source, len, out, room);
    case 1: return osc_encode_tcp(table, n, count, source, len, out, room);
    default: return osc_encode_tcp2(table, n, count, source, len, out, room);
    }
}

/* An encoder's answer, in its parts, and its whole output. */
static void encodes(const char *name, int edition, const char *table_hex, uint64_t count, const char *source_text, size_t room,
                    unsigned refusal, const char *out_hex) {
    uint8_t bytes[256], due[256];
    size_t n = bytes_of(table_hex, bytes), m = bytes_of(out_hex, due), len = strlen(source_text);
    uint8_t *table = copy(bytes, n), *source = copy((const uint8_t *)source_text, len), *out = blank(room);
    uint64_t answer = encode(edition, table, n, count, source, len, out, room);
    same(name, osc_refusal(answer), refusal);
    same(name, osc_written(answer), m);
    holds(name, out, room, due, m);
    free(table);
    free(source);
    free(out);
}

static void writes_text(const char *name, const char *text_hex, size_t room, unsigned refusal, const char *out_hex) {
    uint8_t bytes[256], due[256];
    size_t n = bytes_of(text_hex, bytes), m = bytes_of(out_hex, due);
    uint8_t *text = copy(bytes, n), *out = blank(room);
    uint64_t answer = osc_encode_string(text, n, out, room);
    same(name, osc_refusal(answer), refusal);
    same(name, osc_written(answer), m);
    holds(name, out, room, due, m);
    free(text);
    free(out);
}

/* What osc_look or osc_start answers of a record. */
static uint64_t of_record(uint64_t (*call)(const uint8_t *, size_t, uint64_t), const char *table_hex, uint64_t index) {
    uint8_t bytes[256];
    size_t n = bytes_of(table_hex, bytes);
    uint8_t *table = copy(bytes, n);
    uint64_t answer = call(table, n, index);
    free(table);
    return answer;
}

static void looks(const char *name, const char *table_hex, uint64_t index, unsigned refusal, uint8_t kind) {
    uint64_t answer = of_record(osc_look, table_hex, index);
    same(name, osc_refusal(answer), refusal);
    same(name, osc_kind(answer), kind);
}

static void starts(const char *name, const char *table_hex, uint64_t index, unsigned refusal, uint32_t start) {
    uint64_t answer = of_record(osc_start, table_hex, index);
    same(name, osc_refusal(answer), refusal);
    same(name, osc_began(answer), start);
    same(name, answer, (uint64_t)refusal << 56 | start);
}

/* A table with the tags of its first records shifted, and back. Where `moved` is 0 the call is refused and changes nothing, or there is no
 * tag. */
static void shifts(const char *name, const char *table_hex, uint64_t count, uint64_t by, unsigned refusal, uint32_t moved,
                   const char *shifted_hex) {
    uint8_t bytes[256], due[256];
    size_t n = bytes_of(table_hex, bytes), m = bytes_of(shifted_hex, due);
    uint8_t *table = copy(bytes, n);
    uint64_t answer = osc_shift_table(table, n, count, by);
    same(name, answer, (uint64_t)refusal << 56 | moved);
    same(name, osc_moved(answer), moved);
    same(name, m, n);
    same(name, (uint64_t)memcmp(table, due, n), 0);
    same(name, osc_shift_table(table, n, count, 0 - by), answer);
    same(name, (uint64_t)memcmp(table, bytes, n), 0);
    free(table);
}

/* "/a" with the integer 5, and its table; a line of a table is a record. */
#define FIVE "2F610000 2C690000 00000005"
#define FIVE_TABLE                                 \
    "2F000000 00000002 00000000 00000002 00000000" \
    "69000000 00000002 00000005 00000000 00000008"
/* The same where a frame of a stream holds it. */
#define FRAMED_TABLE                               \
    "2F000000 00000002 00000004 00000002 00000004" \
    "69000000 00000002 00000005 00000000 0000000C"
/* The same with starts that no decoder writes. */
#define OTHER_STARTS                               \
    "2F000000 00000002 00000000 00000002 FFFFFFFF" \
    "69000000 00000002 00000005 00000000 00000001"
/* The example P6, in which an array is not closed, and its table. */
#define SIX "2F610000 2C695B69 00000000 00000001 00000002"
#define SIX_TABLE                                  \
    "2F000000 00000002 00000000 00000002 00000000" \
    "69000000 00000002 00000002 00000000 00000010"
/* The table of "/a" without arguments. */
#define PLAIN_TABLE "2F000000 00000001 00000000 00000002 00000000"
#define EMPTY_BUNDLE "2362756E 646C6500 00000000 00000001"
#define BUNDLE_TABLE "23000000 00000001 00000000 00000001 00000000"
/* "/a" with a text, true, a blob and an array with an integer, and its table. */
#define KINDS "2F610000 2C735462 5B695D00 61000000 00000001 FF000000 00000007"
#define KINDS_TABLE                                \
    "2F000000 00000006 00000000 00000002 00000000" \
    "73000000 00000002 0000000C 00000001 0000000C" \
    "54000000 00000003 00000000 00000000 00000010" \
    "62000000 00000004 00000014 00000001 00000010" \
    "5B000000 00000006 00000000 00000000 00000018" \
    "69000000 00000006 00000007 00000000 00000018"
/* "/a" with an empty array in a bundle, and its table. */
#define ARRAY_IN_BUNDLE EMPTY_BUNDLE "00000008 2F610000 2C5B5D00"
#define ARRAY_IN_BUNDLE_TABLE                      \
    "23000000 00000003 00000000 00000001 00000000" \
    "2F000000 00000003 00000014 00000002 00000014" \
    "5B000000 00000003 00000000 00000000 0000001C"

static void examples(void) {
    refuses("P1", UDP, "", OSC_EMPTY);
    is_short("P2", UDP, "2F000000", OSC_SHORT_TYPES, 4);
    decodes("P3", UDP, FIVE, 8, 64, 0, 0, FIVE_TABLE);
    decodes("P4", UDP, "2F610000 58690000 00000005", 8, 64, 0, 0, FIVE_TABLE);
    decodes("P5", UDP, "2F610000 00000000", 8, 64, 0, 0, PLAIN_TABLE);
    decodes("P6", UDP, SIX, 8, 64, 0, 0, SIX_TABLE);
    refuses("P7", UDP, "2F610000 2C5D0000", OSC_NOT_OPEN);
    refuses("P8", UDP, "2F610000 2C780000", OSC_UNKNOWN_TAG);
    refuses("P9", UDP, "2F610000 2C630000 0000D800", OSC_NOT_SCALAR);
    refuses("P10", UDP, "2FFF0000", OSC_NOT_UTF8);
    refuses("P11", UDP, "61000000", OSC_BAD_START);
    decodes("P12", UDP, EMPTY_BUNDLE "00000000", 8, 64, 0, 4, BUNDLE_TABLE);
    is_short("P13", TCP, "00000008 2F610000", OSC_SHORT_TYPES, 8);
    decodes("P14", TCP, "00000009 2F610000", 8, 64, 0, 8, "");
}

/* Where items begin: by the decoders' tables, and by osc_start, which looks at nothing else. */
static void items(void) {
    decodes("kinds", UDP, KINDS, 8, 64, 0, 0, KINDS_TABLE);
    decodes("a true", UDP, "2F610000 2C540000", 8, 64, 0, 0,
            "2F000000 00000002 00000000 00000002 00000000"
            "54000000 00000002 00000000 00000000 00000008");
    decodes("a message in a bundle", UDP, EMPTY_BUNDLE "0000000C" FIVE, 8, 64, 0, 0,
            "23000000 00000003 00000000 00000001 00000000"
            "2F000000 00000003 00000014 00000002 00000014"
            "69000000 00000003 00000005 00000000 0000001C");
    starts("start of a message", FIVE_TABLE, 0, 0, 0);
    starts("start of an integer", FIVE_TABLE, 1, 0, 8);
    starts("start of a blob", KINDS_TABLE, 3, 0, 16);
    starts("start of no third record", FIVE_TABLE, 2, OSC_BAD_TABLE, 0);
    starts("start of record 2^32", FIVE_TABLE, 0x100000000u, OSC_BAD_TABLE, 0);
    starts("start of record 2^62", FIVE_TABLE, 0x4000000000000000u, OSC_BAD_TABLE, 0);
    starts("start in no table", "", 0, OSC_BAD_TABLE, 0);
    starts("start before a part of a record", BUNDLE_TABLE "69000000 00000002 00000005 00000000 000000", 0, 0, 0);
    starts("start of a part of a record", BUNDLE_TABLE "69000000 00000002 00000005 00000000 000000", 1, OSC_BAD_TABLE, 0);
    starts("start of a record that is none", "FFFFFFFF FFFFFFFF FFFFFFFF FFFFFFFF FFFFFFFE", 0, 0, 0xFFFFFFFEu);
}

static void limits(void) {
    uint8_t *msg = blank(65536);
    uint64_t more;
    decodes("depth 1", UDP, EMPTY_BUNDLE, 1, 1, 0, 0, BUNDLE_TABLE);
    decodes("depth 0", UDP, EMPTY_BUNDLE, 1, 0, OSC_TOO_DEEP, 0, "");
    decodes("an array, depth 1", UDP, KINDS, 6, 1, 0, 0, KINDS_TABLE);
    decodes("an array, depth 0", UDP, KINDS, 6, 0, OSC_TOO_DEEP, 0, "");
    decodes("an array in a bundle, depth 2", UDP, ARRAY_IN_BUNDLE, 3, 2, 0, 0, ARRAY_IN_BUNDLE_TABLE);
    decodes("an array in a bundle, depth 1", UDP, ARRAY_IN_BUNDLE, 3, 1, OSC_TOO_DEEP, 0, "");
    decodes("an array in an open one, depth 1", UDP, "2F610000 2C5B5B54 5D000000", 3, 1, 0, 0,
            "2F000000 00000003 00000000 00000002 00000000"
            "5B000000 00000003 00000000 00000000 0000000C"
            "54000000 00000003 00000000 00000000 0000000C");
    decodes("an array in an open one, depth 0", UDP, "2F610000 2C5B5B54 5D000000", 3, 0, OSC_TOO_DEEP, 0, "");
    decodes("P6, depth 0", UDP, SIX, 8, 0, 0, 0, SIX_TABLE);
    decodes("depth 65", UDP, FIVE, 8, 65, OSC_DEPTH_LIMIT, 0, "");
    decodes("depth 2^32", UDP, FIVE, 8, 0x100000000u, OSC_DEPTH_LIMIT, 0, "");
    decodes("two records", UDP, FIVE, 2, 64, 0, 0, FIVE_TABLE);
    decodes_in("two records and a part", UDP, FIVE, 3 * OSC_RECORD - 1, 64, 0, 0, FIVE_TABLE);
    decodes_in("two records but for a byte", UDP, FIVE, 2 * OSC_RECORD - 1, 64, OSC_TABLE_FULL, 0, "");
    decodes("one record", UDP, FIVE, 1, 64, OSC_TABLE_FULL, 0, "");
    decodes("no record", UDP, FIVE, 0, 64, OSC_TABLE_FULL, 0, "");
    same("65,536 bytes", osc_refusal(decode(UDP, msg, 65536, NULL, 0, 64, &more)), OSC_TOO_LONG);
    same("65,536 bytes", more, 0);
    same("65,535 bytes", osc_refusal(decode(UDP, msg, 65535, NULL, 0, 64, &more)), OSC_SHORT_ADDRESS);
    same("65,535 bytes", more, 0);
    memset(msg, 0, 65535);
    memcpy(msg, "/a\0\0,", 5);
    memset(msg + 5, 'T', 65526);
    msg[6] = 'b';
    same("a blob at the end", osc_refusal(decode(UDP, msg, 65535, NULL, 0, 64, &more)), OSC_SHORT_DATA);
    same("a blob at the end", more, (uint64_t)65532 << 32);
    free(msg);
}

/* What was short, and where it began: what a bundle swallows is told by no number. */
static void shorts(void) {
    is_short("an address without NUL", UDP, "2F61", OSC_SHORT_ADDRESS, 0);
    is_short("a start that may be a bundle's", UDP, "23", OSC_SHORT_ADDRESS, 0);
    is_short("no padding", UDP, "2F00", OSC_SHORT_PADDING, 2);
    is_short("a part of the padding", UDP, "2F0000", OSC_SHORT_PADDING, 2);
    is_short("a type text without NUL", UDP, "2F610000 2C6969", OSC_SHORT_TYPES, 4);
    is_short("a type text without padding", UDP, "2F610000 2C00", OSC_SHORT_PADDING, 6);
    is_short("an integer", UDP, "2F610000 2C690000 000000", OSC_SHORT_DATA, 8);
    is_short("a second integer", UDP, "2F610000 2C696900 00000001", OSC_SHORT_DATA, 12);
    is_short("a text without NUL", UDP, "2F610000 2C730000 616263", OSC_SHORT_DATA, 8);
    is_short("a text without padding", UDP, "2F610000 2C730000 6100", OSC_SHORT_PADDING, 10);
    is_short("a blob's size", UDP, "2F610000 2C620000 0000", OSC_SHORT_DATA, 8);
    is_short("a blob's bytes", UDP, "2F610000 2C620000 00000003 6162", OSC_SHORT_DATA, 8);
    is_short("a blob's padding", UDP, "2F610000 2C620000 00000001 61", OSC_SHORT_PADDING, 13);
    is_short("a time tag", UDP, "2362756E 646C6500 00000000", OSC_SHORT_HEAD, 8);
    is_short("a prefix", TCP, "0000", OSC_SHORT_HEAD, 0);
    is_short("an empty list", TCP_VEC, "", OSC_SHORT_HEAD, 0);
    is_short("a second prefix", TCP_VEC, "0000000C" FIVE "0000", OSC_SHORT_HEAD, 16);
    is_short("a second frame", TCP_VEC, "0000000C" FIVE "00000004 2F616263", OSC_SHORT_ADDRESS, 20);
    decodes("a swallowed element", UDP, EMPTY_BUNDLE "00000004 2F616263", 8, 64, 0, 8, BUNDLE_TABLE);
}

/* How many padding bytes were not zero, of one message. */
static void dirt(void) {
    is_dirty("clean padding", UDP, "2F610000 2C000000", 0, 0, PLAIN_TABLE);
    is_dirty("a NUL and no padding", UDP, "2F616200 2C000000", 0, 0, "2F000000 00000001 00000000 00000003 00000000");
    is_dirty("an address", UDP, "2F610001 2C000000", 1, 0, PLAIN_TABLE);
    is_dirty("a type text", UDP, "2F610000 2C00FF02", 2, 0, PLAIN_TABLE);
    is_dirty("a type text of no bytes", UDP, "2F610000 00010203", 3, 0, PLAIN_TABLE);
    is_dirty("a zero and a byte that is none", UDP, "2F610000 2C000001", 1, 0, PLAIN_TABLE);
    is_dirty("a text", UDP, "2F610000 2C730000 61000203", 2, 0,
             "2F000000 00000002 00000000 00000002 00000000"
             "73000000 00000002 00000008 00000001 00000008");
    is_dirty("a blob", UDP, "2F610000 2C620000 00000001 61010203", 3, 0,
             "2F000000 00000002 00000000 00000002 00000000"
             "62000000 00000002 0000000C 00000001 00000008");
    is_dirty("a blob without padding", UDP, "2F610000 2C620000 00000004 61626364", 0, 0,
             "2F000000 00000002 00000000 00000002 00000000"
             "62000000 00000002 0000000C 00000004 00000008");
    is_dirty("all of them", UDP, "2F610001 2C736200 61000203 00000003 61626304", 4, 0,
             "2F000000 00000003 00000000 00000002 00000000"
             "73000000 00000002 00000008 00000001 00000008"
             "62000000 00000003 00000010 00000003 0000000C");
    is_dirty("a lost text", UDP, "2F610000 2C735B00 61000101", 0, 0, PLAIN_TABLE);
    is_dirty("a lost text, a kept one and the type text", UDP, "2F610000 2C735B73 00010000 61000101 62000001", 2, 0,
             "2F000000 00000002 00000000 00000002 00000000"
             "73000000 00000002 00000010 00000001 00000010");
    is_dirty("bytes left over", UDP, "2F610000 2C000000 FFFFFFFF", 0, 4, PLAIN_TABLE);
}

/* The same of bundles and streams. A byte too many in an element has what follows begin at an odd place. */
#define ODD_BUNDLE EMPTY_BUNDLE "00000009 2F610001 2C000000 FF"
static void dirt_in_packets(void) {
    is_dirty("two elements", UDP, EMPTY_BUNDLE "00000008 2F610001 2C000000 00000008 2F610000 2C000203", 3, 0,
             "23000000 00000003 00000000 00000001 00000000"
             "2F000000 00000002 00000014 00000002 00000014"
             "2F000000 00000003 00000020 00000002 00000020");
    is_dirty("an element that fails", UDP, EMPTY_BUNDLE "00000008 2F610001 2C780001", 0, 12, BUNDLE_TABLE);
    is_dirty("one that fails after one that does not", UDP, ODD_BUNDLE "00000007 2F0001 2C780001", 1, 11,
             "23000000 00000002 00000000 00000001 00000000"
             "2F000000 00000002 00000014 00000002 00000014");
    is_dirty("#bundle at an odd place", UDP, ODD_BUNDLE "00000013 2362756E 646C6500 010002 00000000 00000001", 3, 0,
             "23000000 00000003 00000000 00000001 00000000"
             "2F000000 00000002 00000014 00000002 00000014"
             "23000000 00000003 00000000 00000001 00000021");
    is_dirty("dirt in a frame", TCP, "00000008 2F610001 2C000000 FF", 1, 1, "2F000000 00000001 00000004 00000002 00000004");
    is_dirty("a frame that waits", TCP, "0000000D 2F610001 2C000000", 0, 12, "");
    is_dirty("a second frame that waits", TCP_VEC, "00000008 2F610001 2C000000 00000009 2F610001", 1, 8,
             "2F000000 00000001 00000004 00000002 00000004");
    is_dirty("a second frame at an odd place", TCP_VEC, "00000000" ODD_BUNDLE "00000000 2F610001 2C000002", 3, 0,
             "23000000 00000002 00000000 00000001 00000004"
             "2F000000 00000002 00000018 00000002 00000018"
             "2F000000 00000003 00000025 00000002 00000025");
}

/* A refusal tells nothing of padding that was read before it. */
static void dirt_before_refusals(void) {
    refuses("dirt before 2", TCP_VEC, "00000008 2F610001 2C000000 00000000", OSC_EMPTY);
    refuses("dirt before 7", UDP, "2F610001 2C780000", OSC_UNKNOWN_TAG);
    refuses("dirt before 5", TCP_VEC, "00000008 2F610001 2C000000 00000000 78000000", OSC_BAD_START);
    is_short("dirt before 18", UDP, "2F610001", OSC_SHORT_TYPES, 4);
    is_short("dirt before 21", TCP_VEC, "00000008 2F610001 2C000000 00", OSC_SHORT_HEAD, 12);
    decodes("dirt and 9", UDP, ODD_BUNDLE, 8, 0, OSC_TOO_DEEP, 0, "");
    decodes("dirt and 10", UDP, ODD_BUNDLE, 1, 64, OSC_TABLE_FULL, 0, "");
    decodes("dirt and 13", UDP, "2F610001 2C000000", 8, 65, OSC_DEPTH_LIMIT, 0, "");
}

/* About as much as there may be: "/a" with 13,102 texts of no bytes, each with 3 bytes of padding. */
static void most_dirt(void) {
    enum { TEXTS = 13102, LENGTH = 6 + TEXTS + 4 * TEXTS };
    uint8_t *msg = blank(LENGTH), *table = blank((TEXTS + 1) * OSC_RECORD);
    uint64_t more, answer;
    size_t i;
    memset(msg, 's', 5 + TEXTS);
    memcpy(msg, "/a\0\0,", 5);
    msg[5 + TEXTS] = 0;
    for (i = 6 + TEXTS; i < LENGTH; i += 4) msg[i] = 0;
    answer = decode(UDP, msg, LENGTH, table, (TEXTS + 1) * OSC_RECORD, 64, &more);
    same("most dirt", answer, (uint64_t)(TEXTS + 1) << 32);
    same("most dirt", more, 3 * TEXTS);
    free(msg);
    free(table);
}

static void streams(void) {
    decodes("a frame", TCP, "0000000C" FIVE "00", 8, 64, 0, 1, FRAMED_TABLE);
    decodes("two frames", TCP_VEC, "0000000C" FIVE "00000010" EMPTY_BUNDLE, 8, 64, 0, 0,
            FRAMED_TABLE "23000000 00000003 00000000 00000001 00000014");
    decodes("a frame and a part", TCP_VEC, "0000000C" FIVE "00000010 2362", 8, 64, 0, 6, FRAMED_TABLE);
    is_short("three bytes", TCP_VEC, "000000", OSC_SHORT_HEAD, 0);
}

/* "/a" in a frame, without arguments and with a true; the table of the first where it begins the input; and a bundle in a frame. */
#define PLAIN_FRAME "00000008 2F610000 2C000000"
#define TRUE_FRAME "00000008 2F610000 2C540000"
#define PLAIN_FRAME_TABLE "2F000000 00000001 00000004 00000002 00000004"
#define BUNDLE_FRAME "00000010" EMPTY_BUNDLE
#define BUNDLE_FRAME_TABLE "23000000 00000001 00000000 00000001 00000004"
/* A bundle that an element ended, 4 bytes before its end. */
#define ENDED_BUNDLE EMPTY_BUNDLE "00000000"

/* One frame of edition 2. */
static void frames2(void) {
    decodes("no bytes wait", TCP2, "", 8, 64, 0, 0, "");
    decodes("three bytes wait", TCP2, "000000", 8, 64, 0, 3, "");
    decodes("an unfinished frame waits", TCP2, "00000008 2F610000", 8, 64, 0, 8, "");
    decodes("a length of 65,528 waits", TCP2, "0000FFF8 2F610000", 8, 64, 0, 8, "");
    refuses("a length of 65,532", TCP2, "0000FFFC", OSC_TOO_LONG);
    refuses("a length of 2^32 - 1", TCP2, "FFFFFFFF", OSC_TOO_LONG);
    refuses("a length of 65,531", TCP2, "0000FFFB", OSC_ODD_LENGTH);
    refuses("a length of 6", TCP2, "00000006 2F610000 2C00", OSC_ODD_LENGTH);
    refuses("a length of 0", TCP2, "00000000 2F610000 00000000", OSC_EMPTY);
    refuses("bytes left in a frame", TCP2, "0000000C 2F610000 2C000000 00000000", OSC_BYTES_LEFT);
    refuses("a bundle that an element ended", TCP2, "00000014" ENDED_BUNDLE, OSC_BYTES_LEFT);
    decodes("the same in an element", TCP2, "00000028" EMPTY_BUNDLE "00000014" ENDED_BUNDLE, 8, 64, 0, 0,
            "23000000 00000002 00000000 00000001 00000004"
            "23000000 00000002 00000000 00000001 00000018");
    refuses("4 before 15", TCP2, "0000000C 2FFF0000 2C000000 00000000", OSC_NOT_UTF8);
    decodes("15 before 9", TCP2, "00000014" ENDED_BUNDLE, 8, 0, OSC_BYTES_LEFT, 0, "");
    decodes("9 before 10", TCP2, BUNDLE_FRAME, 0, 0, OSC_TOO_DEEP, 0, "");
    decodes("a frame without room", TCP2, BUNDLE_FRAME, 0, 1, OSC_TABLE_FULL, 0, "");
    decodes("a frame and 65 levels", TCP2, "0000FFFC", 8, 65, OSC_DEPTH_LIMIT, 0, "");
    decodes("a frame before another", TCP2, PLAIN_FRAME PLAIN_FRAME, 8, 64, 0, 12, PLAIN_FRAME_TABLE);
    decodes("a bundle before a frame", TCP2, BUNDLE_FRAME PLAIN_FRAME, 8, 64, 0, 12, BUNDLE_FRAME_TABLE);
    is_short("a packet short in its frame", TCP2, "00000004 2F610000 2C000000", OSC_SHORT_TYPES, 8);
    is_dirty("dirt in a frame of edition 2", TCP2, "00000008 2F610001 2C000000 FF", 1, 1, PLAIN_FRAME_TABLE);
}

/* Lists of edition 2, which stop at a frame that is refused. */
static void lists2(void) {
    uint8_t *msg = blank(65536), *table = blank(2 * OSC_RECORD);
    uint64_t more;
    decodes("an empty list of edition 2", TCP_VEC2, "", 8, 64, 0, 0, "");
    decodes("a list of three bytes", TCP_VEC2, "000000", 8, 64, 0, 3, "");
    decodes("a frame and a part of edition 2", TCP_VEC2, PLAIN_FRAME "00000008 2F61", 8, 64, 0, 6, PLAIN_FRAME_TABLE);
    decodes("a bundle and a frame", TCP_VEC2, BUNDLE_FRAME PLAIN_FRAME, 8, 64, 0, 0,
            BUNDLE_FRAME_TABLE "2F000000 00000002 00000018 00000002 00000018");
    stops("2 of the first frame", "00000000", OSC_EMPTY, 0, "");
    stops_beside("9 of the first frame", BUNDLE_FRAME, 8, 0, OSC_TOO_DEEP, 0, 0, "");
    stops("1 of a frame", PLAIN_FRAME "0000FFFC", OSC_TOO_LONG, 12, PLAIN_FRAME_TABLE);
    stops("16 of a frame", PLAIN_FRAME "00000002 2F61", OSC_ODD_LENGTH, 12, PLAIN_FRAME_TABLE);
    stops("15 of a frame", PLAIN_FRAME "00000014" ENDED_BUNDLE, OSC_BYTES_LEFT, 12, PLAIN_FRAME_TABLE);
    stops("7 of a frame before a good one", "00000008 2F610000 2C780000" PLAIN_FRAME, OSC_UNKNOWN_TAG, 0, "");
    stops_beside("17 at 20 of a frame", "0000000C" FIVE "00000004 2F616263", 8, 64, OSC_SHORT_ADDRESS, 16, (uint64_t)20 << 32,
                 FRAMED_TABLE);
    stops_beside("dirt before a refused frame", "00000008 2F610001 2C000000 00000000", 8, 64, OSC_EMPTY, 12, 1, PLAIN_FRAME_TABLE);
    stops_beside("dirt of a refused frame", PLAIN_FRAME "00000008 2F610001 2C780001", 8, 64, OSC_UNKNOWN_TAG, 12, 0, PLAIN_FRAME_TABLE);
    stops_beside("all numbers at once", "00000008 2F610001 2C000001 00000004 2F616263", 8, 64, OSC_SHORT_ADDRESS, 12,
                 (uint64_t)16 << 32 | 2, PLAIN_FRAME_TABLE);
    stops_beside("9 of the second frame", PLAIN_FRAME BUNDLE_FRAME, 1, 0, OSC_TOO_DEEP, 12, 0, PLAIN_FRAME_TABLE);
    decodes("10 of the second frame", TCP_VEC2, PLAIN_FRAME BUNDLE_FRAME, 1, 1, OSC_TABLE_FULL, 0, "");
    decodes("10 before a refused frame", TCP_VEC2, TRUE_FRAME "0000000C 2F610000 2C5B545D 00000000", 1, 0, OSC_TABLE_FULL, 0, "");
    decodes("the same in edition 1", TCP_VEC, TRUE_FRAME "0000000C 2F610000 2C5B545D 00000000", 1, 0, OSC_TOO_DEEP, 0, "");
    decodes("a list and 65 levels", TCP_VEC2, "0000FFFC", 8, 65, OSC_DEPTH_LIMIT, 0, "");
    same("a list of 65,536 bytes", decode(TCP_VEC2, msg, 65536, NULL, 0, 64, &more), (uint64_t)OSC_TOO_LONG << 56);
    same("a list of 65,536 bytes", more, 0);
    memset(msg, 0, 65536);
    memcpy(msg, "\0\0\xFF\xF4/a\0\0,b\0\0\0\0\xFF\xE8", 16);
    same("a frame at 65,528", decode(TCP_VEC2, msg, 65535, table, 2 * OSC_RECORD, 64, &more),
         (uint64_t)OSC_EMPTY << 56 | (uint64_t)2 << 32 | 7);
    same("a frame at 65,528", more, (uint64_t)65528 << 48);
    same("a frame at 65,528", osc_frame(more), 65528);
    free(msg);
    free(table);
}

/* A stream of three frames in two portions, as a recorder reads it: both steps have the records of the three packets, none twice. */
static void recorder(size_t cut) {
    uint8_t bytes[256], buffer[256], table[8 * OSC_RECORD];
    size_t n = bytes_of("0000000C" FIVE BUNDLE_FRAME PLAIN_FRAME, bytes), from, got, kept = 0, count = 0;
    uint64_t more, answer;
    for (from = 0; from < n; from += got) {
        got = from < cut ? cut : n - from;
        memcpy(buffer + kept, bytes + from, got);
        answer = osc_read_portion(buffer, kept + got, table, sizeof table, 64, &more);
        same("a recorder", osc_refusal(answer) + more, 0);
        count += osc_count(answer);
        same("a recorder", osc_used(answer) <= kept + got, 1);
        if (osc_used(answer) > kept + got) return;
        kept = kept + got - osc_used(answer);
        memmove(buffer, buffer + osc_used(answer), kept);
    }
    same("a recorder", count, 4);
    same("a recorder", kept, 0);
}

/* Steps over a stream of edition 2 that comes in portions. */
static void portions(void) {
    uint8_t *msg = blank(65536), *table = blank(2 * OSC_RECORD);
    uint64_t more = 0xAAAAAAAAAAAAAAAAu;
    size_t cut;
    steps("no bytes of a stream", "", 0, "");
    steps("three bytes of a stream", "000000", 0, "");
    steps("a stream cut in its second frame", "0000000C" FIVE "00000010 2362", 16, FRAMED_TABLE);
    steps("the kept bytes and what came after", BUNDLE_FRAME PLAIN_FRAME, 32,
          BUNDLE_FRAME_TABLE "2F000000 00000002 00000018 00000002 00000018");
    steps("a whole frame and a prefix", PLAIN_FRAME "00000008", 12, PLAIN_FRAME_TABLE);
    steps_beside("dirt before an unfinished frame", "00000008 2F610001 2C000000 00000008 2F610001", 8, 64, 0, 12, 1, PLAIN_FRAME_TABLE);
    ends("a stream ends at its first frame", "00000000", OSC_EMPTY, 0, "");
    ends("a stream ends at a length of 65,532", PLAIN_FRAME "0000FFFC", OSC_TOO_LONG, 12, PLAIN_FRAME_TABLE);
    ends("a refused frame before a good one", PLAIN_FRAME "00000008 2F610000 2C780000" PLAIN_FRAME, OSC_UNKNOWN_TAG, 12,
         PLAIN_FRAME_TABLE);
    steps_beside("9 ends a stream", PLAIN_FRAME BUNDLE_FRAME, 8, 0, 0, 12, (uint64_t)OSC_TOO_DEEP << 48, PLAIN_FRAME_TABLE);
    steps_beside("all numbers of a step at once", "00000008 2F610001 2C000001 00000004 2F616263", 8, 64, 0, 12,
                 (uint64_t)OSC_SHORT_ADDRESS << 48 | (uint64_t)16 << 32 | 2, PLAIN_FRAME_TABLE);
    steps_not("a step without room", PLAIN_FRAME BUNDLE_FRAME, 1, 64, OSC_TABLE_FULL);
    steps_not("the same before a refused frame", PLAIN_FRAME "00000000", 0, 64, OSC_TABLE_FULL);
    steps_not("a step and 65 levels", PLAIN_FRAME, 8, 65, OSC_DEPTH_LIMIT);
    steps_not("a step and 2^32 levels", "", 8, 0x100000000u, OSC_DEPTH_LIMIT);
    same("a step over 65,536 bytes", osc_read_portion(msg, 65536, table, 2 * OSC_RECORD, 64, &more), (uint64_t)OSC_TOO_LONG << 56);
    same("a step over 65,536 bytes", more, 0);
    holds("a step over 65,536 bytes", table, 2 * OSC_RECORD, msg, 0);
    memset(msg, 0, 65536);
    memcpy(msg, "\0\0\xFF\xF8/a\0\0,b\0\0\0\0\xFF\xEC", 16);
    same("the longest frame but for a byte", osc_read_portion(msg, 65531, table, 2 * OSC_RECORD, 64, &more), 0);
    same("the longest frame", osc_read_portion(msg, 65532, table, 2 * OSC_RECORD, 64, &more), (uint64_t)2 << 32 | 65532);
    same("the longest frame", more, 0);
    for (cut = 1; cut < 48; cut++) recorder(cut);
    free(msg);
    free(table);
}

/* A step over `hex`, which stands at `base`, writes this index, uses so many bytes and tells this beside it. The output has room for a
 * byte more. */
static void indexes(const char *name, const char *hex, uint64_t base, const char *due, size_t used, uint64_t beside) {
    uint8_t bytes[256], index[256];
    size_t n = bytes_of(hex, bytes), size = bytes_of(due, index);
    uint8_t *msg = copy(bytes, n), *out = blank(size + 1);
    uint64_t more = 0xAAAAAAAAAAAAAAAAu, answer = osc_index_step(msg, n, base, out, size + 1, &more);
    same(name, answer, (uint64_t)(size / OSC_ENTRY) << 32 | used);
    same(name, more, beside);
    same(name, osc_field(more), beside >> 32 & 0xFFFFu);
    holds(name, out, size + 1, index, size);
    if (size) {
        memset(out, 0xAA, size);
        same(name, osc_index_step(msg, n, base, out, size - 1, &more), (uint64_t)OSC_OUTPUT_SHORT << 56);
        same(name, more, 0);
        holds(name, out, size, index, 0);
    }
    same(name, osc_index_check_step(index, size, index, size, 7), 7 + size / OSC_ENTRY);
    free(msg);
    free(out);
}

/* `given` differs from the index `fresh` at this record, where the first is number 5. */
static void differs(const char *name, const char *fresh, const char *given, uint64_t record) {
    uint8_t a[256], b[256];
    size_t n = bytes_of(fresh, a), m = bytes_of(given, b);
    uint8_t *p = copy(a, n), *q = copy(b, m);
    uint64_t answer = osc_index_check_step(p, n, q, m, 5);
    same(name, osc_refusal(answer), OSC_INDEX_DIFFERS);
    same(name, osc_record(answer), 5 + record);
    free(p);
    free(q);
}

/* Record k of an index is a cue with these numbers, or is refused. */
static void cue(const char *name, const char *hex, uint64_t k, unsigned refusal, uint64_t at, uint32_t length, uint32_t records) {
    uint8_t bytes[256];
    size_t n = bytes_of(hex, bytes);
    uint8_t *index = copy(bytes, n);
    uint64_t offset = 0xAAAAAAAAAAAAAAAAu, answer = osc_cue(index, n, k, &offset);
    same(name, osc_refusal(answer), refusal);
    same(name, offset, at);
    same(name, osc_cue_length(answer), length);
    same(name, osc_count(answer), records);
    free(index);
}

/* A recording in a file: so many of the shortest frames, and one that has no packet. Answers how many bytes stand before that. */
static size_t write_recording(FILE *recording, size_t many) {
    static const uint8_t shortest[12] = {0, 0, 0, 8, '/', 0, 0, 0, ',', 0, 0, 0}, none[4] = {0, 0, 0, 0};
    size_t i, written = 0;
    for (i = 0; i < many; i++) written += fwrite(shortest, sizeof shortest, 1, recording);
    written += fwrite(none, sizeof none, 1, recording);
    same("a recording", written, many + 1);
    rewind(recording);
    return many * sizeof shortest;
}

/* The entry of such a frame. */
static void entry_of(size_t k, uint8_t *to) {
    int i;
    uint64_t at = (uint64_t)12 * k;
    memset(to, 0, OSC_ENTRY);
    for (i = 0; i < 8; i++) to[i] = (uint8_t)(at >> (56 - 8 * i));
    to[11] = 8;
    to[15] = 1;
}

/* The index of a recording through files, as the header's loop writes it; then its check, record by record. */
static void index_of_files(size_t many) {
    static uint8_t buffer[OSC_LONGEST], out[5461 * OSC_ENTRY], due[OSC_ENTRY];
    FILE *recording = tmpfile(), *index = tmpfile();
    size_t got, kept = 0, k, end;
    uint64_t answer, more = 0, base = 0, record = 0;
    if (!recording || !index) exit(2);
    end = write_recording(recording, many);
    while ((got = fread(buffer + kept, 1, sizeof buffer - kept, recording)) > 0) {
        answer = osc_index_step(buffer, kept + got, base, out, sizeof out, &more);
        if (osc_refusal(answer)) break;
        same("an index in a file", fwrite(out, OSC_ENTRY, osc_count(answer), index), osc_count(answer));
        base += osc_used(answer);
        if (osc_ended(more)) break;
        kept = kept + got - osc_used(answer);
        memmove(buffer, buffer + osc_used(answer), kept);
    }
    same("where an index goes no further", base, end);
    same("why an index goes no further", osc_ended(more), OSC_EMPTY);
    rewind(index);
    for (k = 0; record == k && fread(out, OSC_ENTRY, 1, index) == 1; k++) {
        entry_of(k, due);
        record = osc_index_check_step(due, OSC_ENTRY, out, OSC_ENTRY, record);
    }
    same("the entries in a file", record, many);
    same("the entries in a file", k, many);
    fclose(recording);
    fclose(index);
}

/* A cue index of a recording. */
#define FIRST_ENTRY "0000000000000000 00000008 00000001"
#define SECOND_ENTRY "000000000000000C 00000010 00000001"
static void cues(void) {
    uint8_t *msg = blank(65536), *out = blank(OSC_ENTRY);
    uint64_t more = 0xAAAAAAAAAAAAAAAAu;
    const uint64_t far = (uint64_t)1 << 55;
    indexes("an index of no bytes", "", 0, "", 0, 0);
    indexes("an index of two frames", PLAIN_FRAME BUNDLE_FRAME, 0, FIRST_ENTRY SECOND_ENTRY, 32, 0);
    indexes("a step further on", PLAIN_FRAME, 0x123456789ABCDEF0u, "123456789ABCDEF0 00000008 00000001", 12, 0);
    indexes("a frame that is not all there", PLAIN_FRAME "00000008 2F61", 0, FIRST_ENTRY, 12, 1);
    indexes("a prefix that is not all there", "000000", 0, "", 0, 1);
    indexes("a refused frame", PLAIN_FRAME "00000004 2F616263" PLAIN_FRAME, 0, FIRST_ENTRY, 12,
            (uint64_t)OSC_SHORT_ADDRESS << 48 | (uint64_t)16 << 32);
    indexes("the first frame refused", "00000008 2F610000 2C690000", 0x123456789ABCDEF0u, "", 0,
            (uint64_t)OSC_SHORT_DATA << 48 | (uint64_t)12 << 32);
    indexes("a refused frame with no field", PLAIN_FRAME "00000008 2F610000 2C780000", 0, FIRST_ENTRY, 12, (uint64_t)OSC_UNKNOWN_TAG << 48);
    indexes("a length of 65,532", "0000FFFC", 0, "", 0, (uint64_t)OSC_TOO_LONG << 48);
    same("a recording of 2^63 bytes", osc_index_step(msg, 1, 0x7FFFFFFFFFFFFFFFu, out, OSC_ENTRY, &more), (uint64_t)OSC_TOO_LONG << 56);
    same("a recording of 2^63 bytes", more, 0);
    same("a recording of 2^63 - 1 bytes", osc_index_step(msg, 1, 0x7FFFFFFFFFFFFFFEu, out, OSC_ENTRY, &more), 0);
    same("a recording of 2^63 - 1 bytes", (uint64_t)osc_waits(more), 1);
    same("an index of 65,536 bytes", osc_index_step(msg, 65536, 0, out, OSC_ENTRY, &more), (uint64_t)OSC_TOO_LONG << 56);
    holds("an index of 65,536 bytes", out, OSC_ENTRY, msg, 0);
    differs("a record that differs", FIRST_ENTRY SECOND_ENTRY, FIRST_ENTRY "000000000000000C 00000010 00000002", 1);
    differs("a record that is missing", FIRST_ENTRY SECOND_ENTRY, FIRST_ENTRY, 1);
    differs("a part of a record", FIRST_ENTRY SECOND_ENTRY, FIRST_ENTRY "000000000000000C 00000010 000000", 1);
    differs("a record too many", FIRST_ENTRY, FIRST_ENTRY SECOND_ENTRY, 1);
    differs("a byte too many", "", "00", 0);
    same("record 2^55", osc_index_check_step(msg, 0, msg, 0, far), (uint64_t)OSC_TOO_LONG << 56);
    same("record 2^55 - 1", osc_index_check_step(msg, 16, msg, 16, far - 1), far);
    cue("the first cue", FIRST_ENTRY SECOND_ENTRY, 0, 0, 0, 8, 1);
    cue("the second cue", FIRST_ENTRY SECOND_ENTRY, 1, 0, 12, 16, 1);
    cue("no third cue", FIRST_ENTRY SECOND_ENTRY "00", 2, OSC_BAD_TABLE, 0, 0, 0);
    cue("cue 2^60", FIRST_ENTRY SECOND_ENTRY, (uint64_t)1 << 60, OSC_BAD_TABLE, 0, 0, 0);
    cue("the largest numbers", "FFFFFFFFFFFFFFFF FFFFFFFF 00FFFFFF", 0, 0, 0xFFFFFFFFFFFFFFFFu, 0xFFFFFFFFu, 0xFFFFFFu);
    cue("2^24 records", "000000000000000C 00000010 01000000", 0, OSC_BAD_TABLE, 0, 0, 0);
    index_of_files(0);
    index_of_files(5461);
    index_of_files(12000);
    free(msg);
    free(out);
}

static void encoders(void) {
    encodes("five", 0, FIVE_TABLE, 2, "/a", 12, 0, FIVE);
    encodes("five, with room", 0, FIVE_TABLE, 2, "/a", 15, 0, FIVE);
    encodes("five in a stream", 1, FIVE_TABLE, 2, "/a", 16, 0, "0000000C" FIVE);
    encodes("a bundle", 0, BUNDLE_TABLE, 1, "", 16, 0, EMPTY_BUNDLE);
    encodes("a bundle in a stream", 1, BUNDLE_TABLE, 1, "", 16, 0, EMPTY_BUNDLE);
    encodes("five in a stream of edition 2", 2, FIVE_TABLE, 2, "/a", 16, 0, "0000000C" FIVE);
    encodes("a bundle in a stream of edition 2", 2, BUNDLE_TABLE, 1, "", 20, 0, BUNDLE_FRAME);
    encodes("the same, with room", 2, BUNDLE_TABLE, 1, "", 23, 0, BUNDLE_FRAME);
    encodes("a bundle without room for its length", 2, BUNDLE_TABLE, 1, "", 19, OSC_OUTPUT_SHORT, "");
    encodes("a bundle and its message", 2, ARRAY_IN_BUNDLE_TABLE, 3, "                    /a", 32, 0, "0000001C" ARRAY_IN_BUNDLE);
    encodes("no record of edition 2", 2, BUNDLE_TABLE, 0, "", 20, OSC_BAD_TABLE, "");
    encodes("five, with other starts", 0, OTHER_STARTS, 2, "/a", 12, 0, FIVE);
    encodes("no room", 0, FIVE_TABLE, 2, "/a", 11, OSC_OUTPUT_SHORT, "");
    encodes("no room for the length", 1, FIVE_TABLE, 2, "/a", 15, OSC_OUTPUT_SHORT, "");
    encodes("no record", 0, FIVE_TABLE, 0, "/a", 12, OSC_BAD_TABLE, "");
    encodes("a count of 2^32 + 2", 0, FIVE_TABLE, 0x100000002u, "/a", 12, OSC_BAD_TABLE, "");
    encodes("a range past the source", 0, FIVE_TABLE, 2, "/", 12, OSC_BAD_TABLE, "");
    writes_text("a text", "6162", 4, 0, "61620000");
    writes_text("a text of four", "61626364", 8, 0, "6162636400000000");
    writes_text("a text without room", "61626364", 7, OSC_OUTPUT_SHORT, "");
    writes_text("no UTF-8", "FF", 4, OSC_NOT_UTF8, "");
}

static void leaves(void) {
    same("pad 0", osc_pad(0), 0);
    same("pad 1", osc_pad(1), 4);
    same("pad 4", osc_pad(4), 4);
    same("pad 2^64 - 4", osc_pad(0xFFFFFFFFFFFFFFFCu), 0xFFFFFFFFFFFFFFFCu);
    same("pad 2^64 - 3", osc_pad(0xFFFFFFFFFFFFFFFDu), OSC_PAD_OVERFLOW);
    looks("a message", FIVE_TABLE, 0, 0, '/');
    looks("an integer", FIVE_TABLE, 1, 0, 'i');
    looks("no third record", FIVE_TABLE, 2, OSC_BAD_TABLE, 0);
    looks("record 2^32", FIVE_TABLE, 0x100000000u, OSC_BAD_TABLE, 0);
    looks("a second field", "69000000 00000001 00000005 00000001 00000000", 0, OSC_BAD_TABLE, 0);
    looks("true", "54000000 00000001 00000000 00000000 FFFFFFFF", 0, 0, 'T');
    looks("false", "46000000 00000001 00000000 00000000 00000000", 0, 0, 'F');
}

/* Numbers that need all their bits, each taken out of an answer by its function. */
static void wide_numbers(void) {
    uint8_t *msg = blank(65535), *table = blank(2 * OSC_RECORD), *out = blank(65535);
    uint64_t more, answer;
    memcpy(msg, "/a\0\0,\0\0\0", 8);
    answer = decode(UDP, msg, 65535, table, 2 * OSC_RECORD, 64, &more);
    same("65,527 bytes left", osc_left(answer), 65527);
    memset(msg, 'T', 65535);
    memcpy(msg, "/a\0\0,b", 6);
    memset(msg + 65531, 0, 4);
    answer = decode(UDP, msg, 65535, NULL, 0, 64, &more);
    same("a field at 65,532", osc_refusal(answer), OSC_SHORT_DATA);
    same("a field at 65,532", osc_field(more), 65532);
    memset(msg, 'a', 65531);
    answer = osc_encode_string(msg, 65531, out, 65535);
    same("65,532 bytes written", osc_written(answer), 65532);
    memset(msg, 0, 65535);
    memcpy(msg, "\0\0\xFF\xF8/a\0\0,b\0\0\0\0\xFF\xEC", 16);
    answer = osc_read_portion(msg, 65535, table, 2 * OSC_RECORD, 64, &more);
    same("65,532 bytes used", osc_used(answer), 65532);
    answer = osc_index_step(msg, 65535, 0, out, OSC_ENTRY, &more);
    same("65,532 bytes of a recording used", osc_used(answer), 65532);
    same("65,532 bytes of a recording used", (uint64_t)osc_waits(more), 1);
    answer = osc_cue(out, OSC_ENTRY, 0, &more);
    same("a cue of 65,528 bytes", osc_cue_length(answer), 65528);
    free(msg);
    free(table);
    free(out);
}

/* The same of padding and of many records: "/a" with 13,102 texts of no bytes, each with 3 bytes of padding, before a refused frame. */
static void many_numbers(void) {
    enum { TEXTS = 13102, LENGTH = 6 + TEXTS + 4 * TEXTS };
    uint8_t *msg = blank(LENGTH + 8), *table = blank((TEXTS + 1) * OSC_RECORD);
    uint64_t more, answer;
    size_t i;
    memset(msg + 4, 's', 5 + TEXTS);
    memcpy(msg, "\0\0\xFF\xEC/a\0\0,", 9);
    msg[9 + TEXTS] = 0;
    for (i = 10 + TEXTS; i < LENGTH + 4; i += 4) msg[i] = 0;
    memset(msg + LENGTH + 4, 0, 4);
    answer = decode(TCP_VEC2, msg, LENGTH + 8, table, (TEXTS + 1) * OSC_RECORD, 64, &more);
    same("much dirt", osc_count(answer), TEXTS + 1);
    same("much dirt", osc_dirty(more), 3 * TEXTS);
    same("much dirt", osc_frame(more), LENGTH + 4);
    same("much dirt", osc_left(answer), 4);
    answer = osc_read_portion(msg, LENGTH + 8, table, (TEXTS + 1) * OSC_RECORD, 64, &more);
    same("much dirt in a portion", osc_dirty(more), 3 * TEXTS);
    same("much dirt in a portion", osc_ended(more), OSC_EMPTY);
    same("a start far on", osc_began(osc_start(table, (TEXTS + 1) * OSC_RECORD, TEXTS)), LENGTH);
    free(msg);
    free(table);
}

/* The same of a check, and of a step that does not wait but is told of a refused frame. */
static void far_records(void) {
    const uint8_t one[16] = {0}, other[16] = {1}, bad[12] = {0, 0, 0, 8, '/', 0, 0, 0, ',', 'x', 0, 0};
    const uint64_t far = ((uint64_t)1 << 54) + ((uint64_t)1 << 32) + 4096 + 256 + 5;
    uint8_t out[OSC_ENTRY];
    uint64_t more, answer = osc_index_check_step(one, 16, one, 16, far);
    same("a far record", osc_refusal(answer), 0);
    same("a far record", osc_record(answer), far + 1);
    answer = osc_index_check_step(one, 16, other, 16, far);
    same("a far record differs", osc_refusal(answer), OSC_INDEX_DIFFERS);
    same("a far record differs", osc_record(answer), far);
    osc_index_step(bad, 12, 0, out, OSC_ENTRY, &more);
    same("a refused frame does not wait", osc_ended(more), OSC_UNKNOWN_TAG);
    same("a refused frame does not wait", (uint64_t)osc_waits(more), 0);
}

/* The version in words, by a number. */
static void spell(uint64_t version, char *to, size_t room) {
    snprintf(to, room, "%u.%u.%u", (unsigned)(version >> 32), (unsigned)(version >> 16 & 0xFFFFu), (unsigned)(version & 0xFFFFu));
}

static uint64_t numbered(uint64_t major, uint64_t minor, uint64_t patch) { return major << 32 | minor << 16 | patch; }

static void fits(const char *name, uint64_t header, uint64_t library, int due) {
    same(name, (uint64_t)osc_version_fits(header, library), (uint64_t)due);
}

/* The library's version is the header's, in both forms; and which libraries fit a header. */
static void versions(void) {
    char words[32];
    spell(osc_version(), words, sizeof words);
    same("the version", osc_version(), OSC_VERSION);
    same("the version in words", (uint64_t)(strcmp(words, SENNORBAI_VERSION) == 0), 1);
    same("the version is no refusal", osc_refusal(osc_version()), 0);
    same("the library fits", (uint64_t)osc_fits(), 1);
    fits("the same version", numbered(0, 14, 2), numbered(0, 14, 2), 1);
    fits("a later patch", numbered(0, 14, 2), numbered(0, 14, 3), 1);
    fits("an earlier patch", numbered(0, 14, 2), numbered(0, 14, 1), 0);
    fits("a later minor before 1.0", numbered(0, 14, 2), numbered(0, 15, 2), 0);
    fits("an earlier minor before 1.0", numbered(0, 14, 2), numbered(0, 13, 3), 0);
    fits("1.0 for a header of before", numbered(0, 14, 2), numbered(1, 14, 2), 0);
    fits("a later minor", numbered(1, 4, 2), numbered(1, 5, 0), 1);
    fits("an earlier minor", numbered(1, 4, 2), numbered(1, 3, 65535), 0);
    fits("an earlier patch of the same minor", numbered(1, 4, 2), numbered(1, 4, 1), 0);
    fits("a later major", numbered(1, 4, 2), numbered(2, 4, 2), 0);
    fits("an earlier major", numbered(2, 0, 0), numbered(1, 65535, 65535), 0);
}

/* ---- clock conversion (Ticket 7) */

enum rule { A, B };

/* The answer of a Unix time's tag, and the tag; what stood there before is written over. */
static void tags(const char *name, enum rule rule, int64_t seconds, uint64_t nanos, unsigned refusal, uint64_t due) {
    uint64_t tag = 0xAAAAAAAAAAAAAAAAu;
    uint64_t answer = rule == A ? osc_tag_a(seconds, nanos, &tag) : osc_tag_b(seconds, nanos, &tag);
    same(name, answer, (uint64_t)refusal << 56);
    same(name, tag, due);
}

/* The answer of a tag's Unix time, and the seconds. */
static void times(const char *name, enum rule rule, uint64_t tag, unsigned refusal, int64_t due, uint32_t nanos) {
    int64_t seconds = -0x5555555555555555;
    uint64_t answer = rule == A ? osc_unix_a(tag, &seconds) : osc_unix_b(tag, &seconds);
    same(name, osc_refusal(answer), refusal);
    same(name, answer & 0xFFFFFFFFFFFFFFu, nanos);
    same(name, osc_nanos(answer), nanos);
    same(name, (uint64_t)seconds, (uint64_t)due);
}

static void clocks(void) {
    const uint64_t high = (uint64_t)1 << 63, epoch = 2208988800u, top = 0xFFFFFFFFu;
    const int64_t last_a = 2085978495, last_b = 4233462143;
    int rule;
    for (rule = A; rule <= B; rule++) {
        enum rule r = (enum rule)rule;
        tags("1970", r, 0, 0, 0, epoch << 32);
        tags("the highest nanoseconds do not carry", r, 0, 999999999, 0, (epoch << 32) + 4294967292u);
        tags("just below a half", r, 1, 500355614, 0, ((epoch + 1) << 32) + 2149010998u);
        tags("rule A's last second", r, last_a, 0, 0, top << 32);
        tags("before 1970", r, -1, 999999999, OSC_TOO_EARLY, 0);
        tags("the lowest seconds", r, INT64_MIN, 0, OSC_TOO_EARLY, 0);
        tags("the highest seconds", r, INT64_MAX, 0, OSC_TOO_LATE, 0);
        tags("10^9 nanoseconds", r, 0, 1000000000, OSC_NANOSECONDS, 0);
        tags("2^32 nanoseconds", r, 0, (uint64_t)1 << 32, OSC_NANOSECONDS, 0);
        tags("26 before 27", r, INT64_MAX, UINT64_MAX, OSC_NANOSECONDS, 0);
        tags("26 before 28", r, -1, UINT64_MAX, OSC_NANOSECONDS, 0);
        times("1970", r, epoch << 32, 0, 0, 0);
        times("a half goes up", r, (epoch << 32) + 4194304, 0, 0, 976563);
        times("a carry into 1970", r, ((epoch - 1) << 32) + top, 0, 0, 0);
        times("the lowest carry into 1970", r, ((epoch - 1) << 32) + top - 1, 0, 0, 0);
        times("no carry into 1970", r, ((epoch - 1) << 32) + top - 2, OSC_TOO_EARLY, 0, 0);
        times("before 1970", r, high, OSC_TOO_EARLY, 0, 0);
        times("the highest tag", r, UINT64_MAX, 0, last_a + 1, 0);
    }
    tags("the second after rule A's last", A, last_a + 1, 0, OSC_TOO_LATE, 0);
    tags("the second after rule A's last", B, last_a + 1, 0, 0, 0);
    tags("rule B's last second", B, last_b, 0, 0, (uint64_t)0x7FFFFFFF << 32);
    tags("the second after rule B's last", B, last_b + 1, 0, OSC_TOO_LATE, 0);
    times("the immediate tag", A, 1, OSC_TOO_EARLY, 0, 0);
    times("the immediate tag", B, 1, 0, 2085978496, 0);
    times("a carry past rule B's last second", B, high - 1, 0, last_b + 1, 0);
    times("a tag with its top bit clear", A, high - 1, OSC_TOO_EARLY, 0, 0);
    same("a shift", osc_shift(epoch << 32, 5), (epoch << 32) + 5);
    same("a shift around the wrap", osc_shift(UINT64_MAX, 2), 1);
    same("a shift back", osc_shift(1, 0 - (uint64_t)2), UINT64_MAX);
    same("a difference", (uint64_t)osc_difference(7, 5), 2);
    same("a difference around the wrap", (uint64_t)osc_difference(1, UINT64_MAX), 2);
    same("a difference back", (uint64_t)osc_difference(5, 7), 0 - (uint64_t)2);
    same("the highest difference", (uint64_t)osc_difference(high - 1, 0), high - 1);
    same("2^63 apart", (uint64_t)(osc_difference(high, 0) == INT64_MIN), 1);
    same("2^63 apart, turned round", (uint64_t)(osc_difference(0, high) == INT64_MIN), 1);
}

/* A bundle in a bundle, with a message that has a 't' in an array and an 'h', shifted by half a second and one fraction. */
#define TAGS(outer, inner, t)                      \
    "23000000 00000006 " outer " 00000000"         \
    "23000000 00000006 " inner " 00000014"         \
    "2F000000 00000006 00000028 00000002 00000028" \
    "5B000000 00000005 00000000 00000000 00000034" \
    "74000000 00000005 " t " 00000034"             \
    "68000000 00000006 00000000 FFFFFFFF 0000003C"

/* A bundle, and a record of an unknown kind. */
#define BROKEN(fractions)                                    \
    "23000000 00000002 00000000 " fractions " 00000000"      \
    "58000000 00000002 00000000 00000000 00000000"

static void table_tags(void) {
    const uint64_t by = ((uint64_t)1 << 31) + 1, far = ((uint64_t)1 << 32) + 6;
    shifts("tags are shifted", TAGS("00000000 00000001", "00000001 80000000", "FFFFFFFF FFFFFFFF"), 6, by, 0, 3,
           TAGS("00000000 80000002", "00000002 00000001", "00000000 80000000"));
    shifts("the first records alone", TAGS("00000000 00000001", "00000001 80000000", "FFFFFFFF FFFFFFFF"), 4, by, 0, 2,
           TAGS("00000000 80000002", "00000002 00000001", "FFFFFFFF FFFFFFFF"));
    shifts("by zero", TAGS("00000000 00000001", "00000001 80000000", "FFFFFFFF FFFFFFFF"), 6, 0, 0, 3,
           TAGS("00000000 00000001", "00000001 80000000", "FFFFFFFF FFFFFFFF"));
    shifts("no record", FIVE_TABLE, 0, by, 0, 0, FIVE_TABLE);
    shifts("a record that does not exist", FIVE_TABLE, 3, by, OSC_BAD_TABLE, 0, FIVE_TABLE);
    shifts("a count that has 33 bits", TAGS("00000000 00000001", "00000001 80000000", "FFFFFFFF FFFFFFFF"), far, by, OSC_BAD_TABLE, 0,
           TAGS("00000000 00000001", "00000001 80000000", "FFFFFFFF FFFFFFFF"));
    shifts("a later record breaks its rules", BROKEN("00000001"), 2, by, OSC_BAD_TABLE, 0, BROKEN("00000001"));
    shifts("it is not looked at", BROKEN("00000001"), 1, by, 0, 1, BROKEN("80000002"));
    shifts("zero bytes that are not 0", "23000001 00000001 00000000 00000001 00000000", 1, by, OSC_BAD_TABLE, 0,
           "23000001 00000001 00000000 00000001 00000000");
}

/* NULL with the length 0 is a slice of no bytes, in every function. */
static void no_bytes(void) {
    const uint8_t five[12] = {'/', 'a', 0, 0, ',', 'i', 0, 0, 0, 0, 0, 5};
    const uint64_t eleven = (uint64_t)OSC_BAD_TABLE << 56;
    uint64_t more;
    int call, edition;
    for (call = UDP; call <= TCP_VEC2; call++) {
        static const unsigned due[] = {OSC_EMPTY, OSC_SHORT_HEAD, OSC_SHORT_HEAD, 0, 0};
        same("NULL is decoded", decode((enum call)call, NULL, 0, NULL, 0, 64, &more), (uint64_t)due[call] << 56);
        same("NULL is decoded", more, 0);
    }
    same("NULL for a table", decode(UDP, five, 12, NULL, 0, 64, &more), (uint64_t)OSC_TABLE_FULL << 56);
    same("a portion of NULL", osc_read_portion(NULL, 0, NULL, 0, 64, &more), 0);
    same("a step over NULL", osc_index_step(NULL, 0, 0, NULL, 0, &more), 0);
    same("a check of NULL", osc_index_check_step(NULL, 0, NULL, 0, 7), 7);
    same("a cue of NULL", osc_cue(NULL, 0, 0, &more), eleven);
    same("a cue of NULL", more, 0);
    for (edition = 0; edition <= 2; edition++) same("NULL is encoded", encode(edition, NULL, 0, 0, NULL, 0, NULL, 0), eleven);
    same("NULL is a text", osc_encode_string(NULL, 0, NULL, 0), (uint64_t)OSC_OUTPUT_SHORT << 56);
    same("NULL is looked at", osc_look(NULL, 0, 0), eleven);
    same("NULL has no start", osc_start(NULL, 0, 0), eleven);
    same("NULL is shifted", osc_shift_table(NULL, 0, 1, 1), eleven);
    same("no record of NULL is shifted", osc_shift_table(NULL, 0, 0, 1), 0);
}

int main(void) {
    examples();
    items();
    limits();
    shorts();
    dirt();
    dirt_in_packets();
    dirt_before_refusals();
    most_dirt();
    streams();
    frames2();
    lists2();
    portions();
    cues();
    encoders();
    leaves();
    wide_numbers();
    many_numbers();
    far_records();
    versions();
    clocks();
    table_tags();
    no_bytes();
    printf("%d passed, %d failed\n", passed, failed);
    return failed != 0;
}
