/* Runs the loops that stand in include/osc.h, word for word: c/test has put each into a file of its own. Streams are sockets and
 * recordings are files, among them some that cannot be read or written. It ends with 1 where something differs. */
#define _GNU_SOURCE
#include "../include/osc.h"
#include <errno.h>
#include <stdio.h>
#include <stdlib.h>
#include <string.h>
#include <sys/socket.h>
#include <unistd.h>

/* What a loop returns where it does not end well. */
enum { FAILED = -1, REFUSED = -2, DIFFERS = -3 };

static int passed, failed;

static void same(const char *name, uint64_t got, uint64_t due) {
    if (got == due) {
        passed++;
        return;
    }
    failed++;
    printf("%s: %lld in place of %lld\n", name, (long long)got, (long long)due);
}

/* ---- the loops */

/* How many records a recorder has seen, and how many messages of the address "/a" among them. */
static uint64_t seen, named;

static void record(const uint8_t *bytes, const uint8_t *table, uint32_t count) {
    uint32_t i;
    for (i = 0; i < count; i++) {
        uint32_t start = osc_began(osc_start(table, OSC_RECORD * (size_t)count, i));
        named += osc_kind(osc_look(table, OSC_RECORD * (size_t)count, i)) == '/' && !memcmp(bytes + start, "/a", 3);
    }
    seen += count;
}

static int recorder(int socket, size_t *left) {
    static uint8_t buffer[OSC_LONGEST], table[OSC_LONGEST * OSC_RECORD];
    uint64_t answer, more;
    ssize_t got;
    size_t kept = 0;
    *left = 0;
    /* The loop returns, and what it keeps is asked for at each turn. */
#define memmove(to, from, many) (memmove)(to, from, *left = (many))
#include "../target/c/loop_1.inc"
#undef memmove
}

static int indexer(FILE *recording, FILE *index, uint64_t *end) {
    static uint8_t buffer[OSC_LONGEST], out[OSC_MOST_ENTRIES * OSC_ENTRY];
    uint64_t answer, more, base = 0;
    size_t got, kept = 0;
    *end = 0;
#define memmove(to, from, many) (*end = base, (memmove)(to, from, many))
#include "../target/c/loop_2.inc"
#undef memmove
}

static int checker(FILE *recording, FILE *index, uint64_t *at) {
    static uint8_t buffer[OSC_LONGEST], out[OSC_MOST_ENTRIES * OSC_ENTRY], given[OSC_MOST_ENTRIES * OSC_ENTRY];
    uint64_t answer, more, checked = 0, base = 0, from = 0;
    size_t got, size, many, kept = 0;
    *at = 0;
#define osc_index_check_step(a, b, c, d, e) (*at = (osc_index_check_step)(a, b, c, d, e))
#include "../target/c/loop_3.inc"
#undef osc_index_check_step
}

/* ---- a stream through a socket */

#define A_FRAME "\0\0\0\14/a\0\0,i\0\0\0\0\0\5"
#define BUNDLE "\0\0\0\20#bundle\0\0\0\0\0\0\0\0\1"
#define BAD "\0\0\0\10/a\0\0,x\0\0"

/* Sends a stream in pieces of so many bytes and closes, while the loop reads; each piece is sent before the loop goes on. */
static void stream(const char *name, const char *bytes, size_t n, size_t piece, int due, uint64_t records, uint64_t messages, size_t rest) {
    int pair[2], turn;
    size_t left, from;
    pid_t child;
    if (socketpair(AF_UNIX, SOCK_SEQPACKET, 0, pair)) exit(2);
    child = fork();
    if (child < 0) exit(2);
    if (child == 0) {
        close(pair[0]);
        for (from = 0; from < n; from += piece) {
            if (send(pair[1], bytes + from, piece < n - from ? piece : n - from, MSG_NOSIGNAL) < 0) break;
        }
        _exit(0);
    }
    close(pair[1]);
    seen = named = 0;
    turn = recorder(pair[0], &left);
    close(pair[0]);
    same(name, (uint64_t)(int64_t)turn, (uint64_t)(int64_t)due);
    same(name, seen, records);
    same(name, named, messages);
    same(name, left, rest);
}

static void streams(void) {
    static const char whole[] = A_FRAME BUNDLE A_FRAME, refused[] = A_FRAME BUNDLE BAD A_FRAME;
    size_t piece, left;
    for (piece = 1; piece < sizeof whole; piece++) stream("a stream", whole, sizeof whole - 1, piece, 0, 5, 2, 0);
    stream("a stream that ends within a frame", whole, sizeof whole - 4, 7, 0, 3, 1, 13);
    stream("a stream with a refused frame", refused, sizeof refused - 1, 9, REFUSED, 3, 1, 9);
    same("no socket", (uint64_t)(int64_t)recorder(-1, &left), (uint64_t)(int64_t)FAILED);
}

/* ---- recordings in files */

enum { FRAMES = 12000 };
static char recording[12 * FRAMES + 8], expected[OSC_ENTRY * FRAMES];

/* The recording has FRAMES frames of 12 bytes; and its index. */
static void make(void) {
    size_t i, k;
    for (i = 0; i < FRAMES; i++) {
        memcpy(recording + 12 * i, "\0\0\0\10/\0\0\0,\0\0\0", 12);
        memset(expected + OSC_ENTRY * i, 0, OSC_ENTRY);
        for (k = 0; k < 4; k++) expected[OSC_ENTRY * i + 4 + k] = (char)(12 * i >> (24 - 8 * k));
        expected[OSC_ENTRY * i + 11] = 8;
        expected[OSC_ENTRY * i + 15] = 1;
    }
    memcpy(recording + 12 * FRAMES, "\0\0\0\10/\0\0\0", 8);
}

static FILE *file_of(const char *bytes, size_t n) {
    FILE *file = tmpfile();
    if (!file || fwrite(bytes, 1, n, file) != n || fflush(file)) exit(2);
    rewind(file);
    return file;
}

/* A file that can be read only so far. */
struct broken {
    const char *bytes;
    size_t left;
};
static ssize_t read_broken(void *cookie, char *to, size_t n) {
    struct broken *from = (struct broken *)cookie;
    if (from->left == 0) {
        errno = EIO;
        return -1;
    }
    if (n > from->left) n = from->left;
    memcpy(to, from->bytes, n);
    from->bytes += n;
    from->left -= n;
    return (ssize_t)n;
}
static FILE *broken_file(struct broken *from) {
    cookie_io_functions_t functions = {read_broken, NULL, NULL, NULL};
    FILE *file = fopencookie(from, "r", functions);
    if (!file) exit(2);
    return file;
}

/* Writes an index; it is the first part of the expected one, of so many records. */
static void writes(const char *name, FILE *from, FILE *index, int due, size_t records) {
    static char written[sizeof expected + 1];
    uint64_t end;
    int turn = indexer(from, index, &end);
    same(name, (uint64_t)(int64_t)turn, (uint64_t)(int64_t)due);
    if (due == 0) {
        rewind(index);
        same(name, fread(written, 1, sizeof written, index), OSC_ENTRY * records);
        same(name, (uint64_t)memcmp(written, expected, OSC_ENTRY * records), 0);
    }
    fclose(from);
    fclose(index);
}

/* Checks an index: with DIFFERS it differs at that record. */
static void checks(const char *name, FILE *from, FILE *index, int due, uint64_t record_due) {
    uint64_t at;
    int turn = checker(from, index, &at);
    same(name, (uint64_t)(int64_t)turn, (uint64_t)(int64_t)due);
    if (due == DIFFERS || due == 0) {
        same(name, osc_refusal(at), due ? OSC_INDEX_DIFFERS : 0);
        same(name, osc_record(at), record_due);
    }
    fclose(from);
    fclose(index);
}

static FILE *opened(const char *name, const char *mode) {
    FILE *file = fopen(name, mode);
    if (!file) exit(2);
    return file;
}

static void indexes(void) {
    struct broken at_once = {recording, 0}, later = {recording, 12 * 6000};
    writes("an index", file_of(recording, 12 * FRAMES), tmpfile(), 0, FRAMES);
    writes("an index of no bytes", file_of(recording, 0), tmpfile(), 0, 0);
    writes("an index of one that ends within a frame", file_of(recording, 12 * FRAMES + 8), tmpfile(), 0, FRAMES);
    writes("a directory", opened("/", "r"), tmpfile(), FAILED, 0);
    writes("a recording that cannot be read", broken_file(&at_once), tmpfile(), FAILED, 0);
    writes("a recording that cannot be read to its end", broken_file(&later), tmpfile(), FAILED, 0);
    writes("an index for which there is no room", file_of(recording, 12 * FRAMES), opened("/dev/full", "w"), FAILED, 0);
    writes("a short one for which there is no room", file_of(recording, 12), opened("/dev/full", "w"), FAILED, 0);
}

static void refused_frame(void) {
    static char damaged[sizeof recording];
    memcpy(damaged, recording, sizeof recording);
    damaged[12 * 7000 + 9] = 'x';
    writes("an index up to a refused frame", file_of(damaged, 12 * FRAMES), tmpfile(), 0, 7000);
    checks("its check", file_of(damaged, 12 * FRAMES), file_of(expected, OSC_ENTRY * 7000), 0, 7000);
    checks("a record too many", file_of(damaged, 12 * FRAMES), file_of(expected, OSC_ENTRY * 7001), DIFFERS, 7000);
}

static void checked_files(void) {
    static char other[sizeof expected + 1];
    struct broken at_once = {recording, 0}, later = {recording, 12 * 6000}, index = {expected, OSC_ENTRY * 6000};
    struct broken end = {expected, sizeof expected};
    memcpy(other, expected, sizeof expected);
    other[OSC_ENTRY * 11999 + 15] = 2;
    checks("a check", file_of(recording, 12 * FRAMES), file_of(expected, sizeof expected), 0, FRAMES);
    checks("a check of no bytes", file_of(recording, 0), file_of(expected, 0), 0, 0);
    checks("the last record differs", file_of(recording, 12 * FRAMES), file_of(other, sizeof expected), DIFFERS, 11999);
    checks("the last record is missing", file_of(recording, 12 * FRAMES), file_of(expected, sizeof expected - OSC_ENTRY), DIFFERS, 11999);
    checks("a byte is missing", file_of(recording, 12 * FRAMES), file_of(expected, sizeof expected - 1), DIFFERS, 11999);
    other[OSC_ENTRY * 11999 + 15] = 1;
    checks("a byte too many", file_of(recording, 12 * FRAMES), file_of(other, sizeof other), DIFFERS, FRAMES);
    checks("many too many", file_of(recording, 0), file_of(expected, sizeof expected), DIFFERS, 0);
    checks("a directory is checked", opened("/", "r"), file_of(expected, 0), FAILED, 0);
    checks("a recording that cannot be checked", broken_file(&at_once), file_of(expected, 0), FAILED, 0);
    checks("one that cannot be checked to its end", broken_file(&later), file_of(expected, OSC_ENTRY * 6000), FAILED, 0);
    checks("an index that is a directory", file_of(recording, 12 * FRAMES), opened("/", "r"), FAILED, 0);
    checks("an index that cannot be read to its end", file_of(recording, 12 * FRAMES), broken_file(&index), FAILED, 0);
    checks("an index that cannot be read after it", file_of(recording, 12 * FRAMES), broken_file(&end), FAILED, 0);
}

int main(void) {
    make();
    streams();
    indexes();
    refused_frame();
    checked_files();
    printf("%d passed, %d failed\n", passed, failed);
    return failed != 0;
}
