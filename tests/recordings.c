/* Writes recordings, frames of edition 2 end to end, and their indexes, for tests/recordings. It knows the format from the OSC 1.0 text
 * and from Ticket 5 alone and uses nothing of the library, so that what the program says is held against another's word.
 *
 *     recordings long RECORDING INDEX BYTES
 *         writes a recording of at least so many bytes: frames of the longest size, whose blobs are holes in the file, and short messages
 *         and bundles between them, which hold the number of their frame. It says how many frames and bytes there are, and the number of
 *         the frame that begins exactly at 2^32; 0 where the recording does not reach so far. The last frame is a short one.
 *     recordings mixed INDEX BYTES SEED
 *         writes a recording of at least so many bytes to standard output, in portions of odd sizes: messages with arguments of every
 *         kind, bundles in bundles, and now and then a long blob or a long list of tags. The same seed gives the same bytes.
 *     recordings most FILE COMMAND..
 *         runs a command, ends with its status, and writes to FILE how many KiB were resident at most in it or in what it started.
 *
 * An index has 16 bytes for each frame, the highest first: the offset of its prefix (8), its length without that (4), its records (4). */
#define _POSIX_C_SOURCE 200809L
#define _DEFAULT_SOURCE
#define _FILE_OFFSET_BITS 64
#include <fcntl.h>
#include <inttypes.h>
#include <stdio.h>
#include <stdlib.h>
#include <string.h>
#include <sys/resource.h>
#include <sys/wait.h>
#include <unistd.h>

/* The longest packet: 65,535 bytes are read at once, the prefix has 4 of them, and a packet has a multiple of 4. */
enum { LONGEST = 65528, PREFIX = 4, BLOB_HEAD = 12, MOST_TAGS = 3275, ROOM = 1 << 17, SHORTS = 6 };

static const uint64_t mark = (uint64_t)1 << 32;

static void stop(const char *what) {
    fprintf(stderr, "recordings: ");
    perror(what);
    exit(2);
}

/* ---- the frames that are made, in memory until they are written */

static uint8_t made[ROOM];
static size_t size;
static uint32_t records;

static void byte(unsigned x) {
    if (size == ROOM) exit(2);
    made[size++] = (uint8_t)x;
}

static void word(uint32_t x) {
    for (int shift = 24; shift >= 0; shift -= 8) byte(x >> shift & 255);
}

static void twice(uint64_t x) {
    word((uint32_t)(x >> 32));
    word((uint32_t)x);
}

/* NULs up to the next multiple of 4, counted from the frame, which begins at one. */
static void pad(void) {
    while (size % 4) byte(0);
}

static void text(const char *s) {
    while (*s) byte((uint8_t)*s++);
    byte(0);
    pad();
}

/* Begins a packet behind its length, and ends it: the length is put there then. */
static size_t begin(void) {
    word(0);
    return size;
}

static void end(size_t from) {
    size_t now = size;
    size = from - PREFIX;
    word((uint32_t)(now - from));
    size = now;
}

/* ---- the index, which is written as frames are */

static FILE *index_file;
static uint64_t at, frames, at_mark;

/* A frame of so many bytes without its prefix, and of so many records, stands at `at`. */
static void enter(uint32_t length, uint32_t entries) {
    size_t before = size;
    twice(at);
    word(length);
    word(entries);
    if (fwrite(made + before, 1, 16, index_file) != 16) stop("the index");
    size = before;
    if (at == mark) at_mark = frames;
    at += PREFIX + length;
    frames++;
}

static void open_index(const char *name) {
    index_file = fopen(name, "wb");
    if (!index_file) stop(name);
}

static void close_index(void) {
    if (fclose(index_file) != 0) stop("the index");
}

/* ---- a long recording with holes */

/* Writes what is made before an offset. */
static void place(int file, uint64_t before) {
    for (size_t done = 0; done < size;) {
        ssize_t n = pwrite(file, made + done, size - done, (off_t)(before - size + done));
        if (n <= 0) stop("the recording");
        done += (size_t)n;
    }
    size = 0;
}

/* A frame with a blob of so many bytes, a multiple of 4, which are left out; what was made before it is written. */
static void hole(int file, uint32_t bytes) {
    word(BLOB_HEAD + bytes);
    text("/");
    text(",b");
    word(bytes);
    enter(BLOB_HEAD + bytes, 2);
    place(file, at - bytes);
}

/* Short frames in turn, each with the number that it has among all, so that no two have the same table. */
static void brief(void) {
    static const char *const addresses[] = {"/cue/go", "/eos/out/active/cue/1/20", "/a", "/fader/1"};
    size_t from = begin(), inner;
    uint32_t entries = 2;
    if (frames % 5 == 4) {
        text("#bundle");
        twice(frames + 2);
        inner = begin();
        text("/cue/fire");
        text(",i");
        word((uint32_t)frames);
        end(inner);
        entries = 3;
    } else if (frames % 3 == 2) {
        text(addresses[frames % 4]);
        text(",i[sT]f");
        word((uint32_t)frames);
        text("Blackout");
        word(0x3F000000);
        entries = 6;
    } else {
        text(addresses[frames % 4]);
        text(",i");
        word((uint32_t)frames);
    }
    end(from);
    enter((uint32_t)(size - from), entries);
}

/* One frame more: short ones and then a long one, in turn. At the mark one ends that is made to fit, and a short one begins. */
static void go_on(int file) {
    static int left = SHORTS;
    if (at < mark && mark - at <= PREFIX + LONGEST) {
        if (mark - at < PREFIX + BLOB_HEAD) exit(2);
        hole(file, (uint32_t)(mark - at) - PREFIX - BLOB_HEAD);
        left = SHORTS;
    } else if (left > 0) {
        brief();
        left--;
    } else {
        hole(file, LONGEST - BLOB_HEAD);
        left = SHORTS;
    }
}

static int write_long(const char *name, const char *index_name, uint64_t bytes) {
    int file = open(name, O_WRONLY | O_CREAT | O_TRUNC, 0666);
    if (file < 0) stop(name);
    open_index(index_name);
    /* A hole has no length of its own at the end of a file, so that a short frame comes last. */
    while (at < bytes || size == 0) go_on(file);
    place(file, at);
    if (close(file) != 0) stop(name);
    close_index();
    printf("%" PRIu64 " %" PRIu64 " %" PRIu64 "\n", frames, at, at_mark);
    return 0;
}

/* ---- a mixed recording, to standard output */

static uint64_t state;

/* A number below n: xorshift64*. */
static uint32_t below(uint32_t n) {
    state ^= state >> 12;
    state ^= state << 25;
    state ^= state >> 27;
    return (uint32_t)((state * 0x2545F4914F6CDD1D) >> 32) % n;
}

static uint32_t any(void) {
    uint32_t high = below(1 << 16);
    return high << 16 | below(1 << 16);
}

/* Letters and, now and then, a letter of two bytes. */
static void letters(uint32_t n) {
    for (uint32_t i = 0; i < n; i++) {
        if (below(20) == 0) {
            byte(0xC3);
            byte(0xA0 + below(30));
        } else {
            byte('a' + below(26));
        }
    }
}

static void blob(uint32_t n) {
    word(n);
    for (uint32_t i = 0; i < n; i++) byte(any() >> 24);
    pad();
}

/* The data of an argument. */
static void value(char tag) {
    switch (tag) {
        case 'i': case 'f': case 'r': case 'm': word(any()); break;
        case 'h': case 'd': case 't': word(any()); word(any()); break;
        case 'c': word('A' + below(26)); break;
        case 's': letters(below(24)); byte(0); pad(); break;
        case 'b': blob(below(40)); break;
        default: break;
    }
}

/* A message with up to 12 arguments, some of them in an array. */
static void message(void) {
    static const char kinds[] = "ifsbthdcrmTFNI";
    char tags[16] = ",";
    uint32_t n = below(12), open = below(4) == 0 ? below(12) : 12, used = 1;
    for (uint32_t i = 0; i < n; i++) {
        if (i == open) tags[used++] = '[';
        tags[used++] = kinds[below(14)];
    }
    if (open < n) tags[used++] = ']';
    tags[used] = 0;
    byte('/');
    letters(1 + below(30));
    byte(0);
    pad();
    text(tags);
    for (uint32_t i = 1; i < used; i++) value(tags[i]);
    records += 1 + n + (open < n);
}

/* A bundle of up to 4 messages and bundles, at most 4 deep. */
static void bundle(int depth) {
    text("#bundle");
    word(any());
    word(any());
    records++;
    for (uint32_t n = below(5); n > 0; n--) {
        size_t from = begin();
        if (depth < 4 && below(4) == 0) {
            bundle(depth + 1);
        } else {
            message();
        }
        end(from);
    }
}

/* A message with one blob, up to the longest. */
static void long_blob(void) {
    text("/");
    text(",b");
    blob(below(LONGEST - BLOB_HEAD + 1));
    records += 2;
}

/* A message with tags that have no data, up to as many as an index has room for. */
static void long_tags(void) {
    uint32_t n = below(MOST_TAGS + 1);
    text("/");
    byte(',');
    for (uint32_t i = 0; i < n; i++) byte("TFNI"[below(4)]);
    byte(0);
    pad();
    records += 1 + n;
}

static void mixed_frame(void) {
    uint32_t turn = below(1000);
    size_t from;
    size = 0;
    records = 0;
    from = begin();
    if (turn < 3) {
        long_blob();
    } else if (turn < 6) {
        long_tags();
    } else if (turn < 250) {
        bundle(1);
    } else {
        message();
    }
    end(from);
    enter((uint32_t)(size - from), records);
}

/* What is to be written at once: portions of up to 9,973 bytes, whatever frames they cut. */
static uint8_t portion[9973];
static size_t have, due = 1;

static void put_portion(void) {
    for (size_t done = 0; done < have;) {
        ssize_t n = write(1, portion + done, have - done);
        if (n <= 0) stop("standard output");
        done += (size_t)n;
    }
    have = 0;
    due = 1 + below(sizeof portion);
}

static void put_frame(void) {
    for (size_t i = 0; i < size; i++) {
        portion[have++] = made[i];
        if (have == due) put_portion();
    }
}

static int write_mixed(const char *index_name, uint64_t bytes, uint64_t seed) {
    state = seed * 2 + 1;
    open_index(index_name);
    while (at < bytes) {
        mixed_frame();
        put_frame();
    }
    put_portion();
    close_index();
    return 0;
}

/* ---- the memory of a command */

static int most(const char *name, char **command) {
    struct rusage used;
    int status;
    pid_t child = fork();
    if (child < 0) stop("fork");
    if (child == 0) {
        execvp(command[0], command);
        stop(command[0]);
    }
    if (wait4(child, &status, 0, &used) != child) stop("wait");
    FILE *file = fopen(name, "w");
    if (!file || fprintf(file, "%ld\n", used.ru_maxrss) < 0 || fclose(file) != 0) stop(name);
    return WIFEXITED(status) ? WEXITSTATUS(status) : 128 + WTERMSIG(status);
}

int main(int count, char **words) {
    if (count == 5 && !strcmp(words[1], "long")) return write_long(words[2], words[3], strtoull(words[4], NULL, 10));
    if (count == 5 && !strcmp(words[1], "mixed")) {
        return write_mixed(words[2], strtoull(words[3], NULL, 10), strtoull(words[4], NULL, 10));
    }
    if (count > 3 && !strcmp(words[1], "most")) return most(words[2], words + 3);
    fprintf(stderr, "recordings long RECORDING INDEX BYTES | mixed INDEX BYTES SEED | most FILE COMMAND..\n");
    return 2;
}
