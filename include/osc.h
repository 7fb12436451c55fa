/* Sennorbai: Open Sound Control packets and node tables. C99 and C++17. Link with dist/x86_64/libosc.a.
 *
 * No function allocates, keeps a pointer or has a state. Every pointer may be to any bytes, and a length may be 0, with a NULL pointer
 * too; slices that a call may write must not overlap the others. A `uint64_t *` or an `int64_t *` is to one number, aligned as C has
 * it. A call that is refused changes no byte of a slice. Each call ends within 29,456 bytes of stack, an encoder of packets within 13,184,
 * and a call on one record, cue, text, number, time or part of an index within 5,168, whatever it is given (measured by c/stack.c on
 * x86-64).
 *
 * A node table has records of OSC_RECORD bytes, big-endian: kind (1), three zero bytes, end (4), a (4), b (4), start (4).
 * The start is the offset, from the decoder's first input byte, where the item's data begins: a message's address, a bundle's
 * "#bundle", a blob's size, a text's or number's first byte; of an array and of a tag without data, the place reached in the
 * data. A table is well formed with any starts: osc_start alone reads them. */
#ifndef SENNORBAI_OSC_H
#define SENNORBAI_OSC_H

/* The version of the library that this header belongs to, and the same as a number: the major in bits 32 to 47, the minor in bits 16 to
 * 31, the patch in bits 0 to 15. osc_fits says whether the library that is linked fits. */
#define SENNORBAI_VERSION "0.16.2"
#define OSC_VERSION (UINT64_C(0) << 32 | UINT64_C(16) << 16 | UINT64_C(2))

#include <stddef.h>
#include <stdint.h>

#ifdef __cplusplus
extern "C" {
#endif

/* The bytes of a record, the longest input and result in bytes, and the deepest nesting of bundles and arrays together. */
enum { OSC_RECORD = 20, OSC_LONGEST = 65535, OSC_DEEPEST = 64 };

/* The bytes of a record of a cue index; the most records that the frames of OSC_LONGEST bytes have, since a frame has 12 at least; and the
 * most that the table of a frame in an index has: those that 64 KiB hold. */
enum { OSC_ENTRY = 16, OSC_MOST_ENTRIES = 5461, OSC_MOST_IN_A_CUE = 3276 };

/* The refusals, by their numbers. */
enum {
    OSC_TOO_LONG = 1,      /* decode input or encoded result over 65,535 bytes; of a frame of edition 2, a length over 65,531 */
    OSC_EMPTY = 2,         /* a packet of no bytes */
    OSC_NOT_UTF8 = 4,      /* text is not UTF-8 */
    OSC_BAD_START = 5,     /* first string is neither '/'-led nor exactly "#bundle" */
    OSC_NOT_OPEN = 6,      /* ']' with no array open */
    OSC_UNKNOWN_TAG = 7,   /* unknown type tag */
    OSC_NOT_SCALAR = 8,    /* 'c' is not a scalar number */
    OSC_TOO_DEEP = 9,      /* bundles and arrays nested deeper than the limit */
    OSC_TABLE_FULL = 10,   /* the result has more records than the capacity */
    OSC_BAD_TABLE = 11,    /* table not well formed, or a record asked for does not exist */
    OSC_OUTPUT_SHORT = 12, /* output slice shorter than the result */
    OSC_DEPTH_LIMIT = 13,  /* depth limit over 64 */
    OSC_PAD_OVERFLOW = 14, /* osc_pad of a position over 2^64 - 4 */
    OSC_BYTES_LEFT = 15,   /* a frame of edition 2 has bytes left after its packet */
    OSC_ODD_LENGTH = 16,   /* the length of a frame of edition 2 is no multiple of 4 */
    /* What was not all there; osc_field says where it began. There is no 3: these five stand in its place. */
    OSC_SHORT_ADDRESS = 17, /* the address, its NUL included; also a first text that is not known yet to be "#bundle" */
    OSC_SHORT_TYPES = 18,   /* the type text, its NUL included */
    OSC_SHORT_DATA = 19,    /* the data of an argument: a text's NUL and a blob's size included, its padding not */
    OSC_SHORT_PADDING = 20, /* the padding after a text or a blob */
    OSC_SHORT_HEAD = 21,    /* the prefix of a frame, or a bundle's time tag */
    OSC_INDEX_DIFFERS = 25, /* a cue index is not that of its recording; osc_record says at which record */
    OSC_NANOSECONDS = 26,   /* nanoseconds of 10^9 or more */
    OSC_TOO_LATE = 27,      /* a Unix time later than the rule allows */
    OSC_TOO_EARLY = 28      /* a Unix time before 1970, after any carry */
};

/* Decoders. They read `len` bytes at `msg` and write records to the `table_len` bytes at `table`.
 * `depth` is how deep a tree may be, at most OSC_DEEPEST: each bundle and each array is a level, a message is none, and the
 * deepest path counts. What an unclosed '[' loses is not in the tree and does not count.
 * In a TCP stream each packet stands in a frame, after a prefix of 4 bytes, its length. In edition 1, which is rosc's, the length cuts
 * nothing; in edition 2, which is OSC 1.0's, it cuts the packet, which must fill its frame. The functions of edition 2 end in 2.
 * Bits 56 to 63 of the answer are the refusal's number, 0 where there is an answer; bits 32 to 55 the count of records;
 * bits 0 to 31 the input bytes left over, which are the last ones. Waiting, which osc_decode_tcp and osc_decode_tcp2 alone answer, is
 * count 0 with the whole input left; of a list that is no packets.
 * A list of edition 2 stops at a frame that is refused: the number is the frame's then, the records of the packets before it are in the
 * table and counted, and the bytes left are those from its prefix on, 4 at least. Where the call is refused, both are 0: osc_stopped
 * tells the two apart.
 * `*more` is written by every call. Its bits 32 to 47 are, for the refusals 17 to 21, where the field began that was short,
 * counted from the first byte at `msg`; they are 0 for every other answer. Its bits 0 to 31 are how many padding bytes were not zero, of
 * all packets in the table together; they are 0 where the call is refused and for Waiting. Its bits 48 to 63 are, where a list stops,
 * where the refused frame's prefix began, counted so; they are 0 otherwise. `more` must not be NULL and must not overlap the slices.
 * Padding is what follows the NUL of a text, or the bytes of a blob, up to a multiple of 4, counted from the first byte at `msg` or,
 * in a stream, from the frame's length. That of what is in the table counts: of each message's address and type text, each text and
 * each blob, and of a bundle's "#bundle", which has some only where the bundle is an element at no multiple of 4. That of arguments
 * which an unclosed '[' loses, and of an element that ended its bundle, does not. */

/* One packet from all of a UDP packet. */
uint64_t osc_decode_udp(const uint8_t *msg, size_t len, uint8_t *table, size_t table_len, uint64_t depth, uint64_t *more);

/* The first packet of a TCP stream in edition 1. It may answer Waiting. */
uint64_t osc_decode_tcp(const uint8_t *msg, size_t len, uint8_t *table, size_t table_len, uint64_t depth, uint64_t *more);

/* The packets of a TCP stream in edition 1, one after another in the table. A frame that is refused refuses the call. */
uint64_t osc_decode_tcp_vec(const uint8_t *msg, size_t len, uint8_t *table, size_t table_len, uint64_t depth, uint64_t *more);

/* The first packet of a TCP stream in edition 2. It may answer Waiting, also to fewer than 4 bytes. */
uint64_t osc_decode_tcp2(const uint8_t *msg, size_t len, uint8_t *table, size_t table_len, uint64_t depth, uint64_t *more);

/* The packets of a TCP stream in edition 2, one after another in the table, up to a frame that is refused. Only OSC_DEPTH_LIMIT,
 * OSC_TOO_LONG of an input and OSC_TABLE_FULL refuse the call. No bytes are no packets and nothing left. */
uint64_t osc_decode_tcp_vec2(const uint8_t *msg, size_t len, uint8_t *table, size_t table_len, uint64_t depth, uint64_t *more);

/* A step over a TCP stream in edition 2 that comes in portions. The `bytes_len` bytes at `bytes` are what was kept of it and what came
 * after that. The packets of every whole frame are read, as osc_decode_tcp_vec2 reads them, and the frame that is not all there is kept.
 * Bits 56 to 63 of the answer are the number of the call's refusal, OSC_DEPTH_LIMIT, OSC_TOO_LONG of an input or OSC_TABLE_FULL, and 0
 * where there is an answer; bits 32 to 55 the count of records; bits 0 to 31 the bytes used, which are the first ones. Those after them
 * are to be kept: what comes next stands after them.
 * A frame that is refused ends the stream: it stands after the bytes used, and what follows it cannot be read. Bits 48 to 63 of `*more`
 * are the number of its refusal then, and 0 otherwise; bits 32 to 47 and 0 to 31 are what they are for a decoder. `*more` is written by
 * every call, and is 0 where the call is refused. `more` must not be NULL and must not overlap the slices.
 * A recorder, with a buffer of OSC_LONGEST bytes, which has room for every frame with its prefix, and `kept` 0 at first. FAILED and
 * REFUSED are numbers of the caller's own; 0 is that the sender has closed, within a frame where `kept` is not 0:
 *
 *     while ((got = recv(socket, buffer + kept, sizeof buffer - kept, 0)) > 0) {
 *         answer = osc_read_portion(buffer, kept + got, table, sizeof table, OSC_DEEPEST, &more);
 *         if (osc_refusal(answer)) return FAILED;      // no byte was used, and the table is as it was
 *         record(buffer, table, osc_count(answer));    // offsets in the table are into the buffer: before it is moved
 *         if (osc_ended(more)) return REFUSED;         // the next frame is refused
 *         kept = kept + got - osc_used(answer);
 *         memmove(buffer, buffer + osc_used(answer), kept);
 *     }
 *     return got < 0 ? FAILED : 0; */
uint64_t osc_read_portion(const uint8_t *bytes, size_t bytes_len, uint8_t *table, size_t table_len, uint64_t depth, uint64_t *more);

/* A cue index of a recording, which is frames of edition 2 end to end: OSC_ENTRY bytes for each frame, big-endian, with the offset of its
 * prefix (8), its length without the prefix (4) and the records of its table (4). It goes up to the first frame that is not accepted:
 * OSC_DEEPEST deep, with OSC_MOST_IN_A_CUE records; one that is not all there counts so. */

/* A step that writes an index. The `bytes_len` bytes at `bytes` stand at offset `base` of the recording, where a frame begins; the records
 * go to the `out_len` bytes at `out`.
 * Bits 56 to 63 of the answer are the number of the call's refusal: OSC_TOO_LONG of an input, or where the recording has 2^63 bytes or
 * more, and OSC_OUTPUT_SHORT. They are 0 where there is an answer; bits 32 to 55 are the records written, and bits 0 to 31 the bytes used:
 * the next step begins after them.
 * `*more` is written by every call: 1 where the frame after the bytes used is not all there, the number of its refusal in bits 48 to 63
 * where it is refused, which ends the index, and 0 otherwise. Beside the refusals 17 to 21 bits 32 to 47 are where the field began that was
 * short, counted from the first byte at `bytes`: `base + osc_field(more)` is its offset in the recording. `more` must not be NULL and must
 * not overlap the slices.
 * With a buffer of OSC_LONGEST bytes, an output of OSC_MOST_ENTRIES records, for which it is never short, and `kept` and `base` 0 at
 * first. A file that cannot be read looks like one that has ended, and one that cannot be written like one that was: both are asked.
 *
 *     while ((got = fread(buffer + kept, 1, sizeof buffer - kept, recording)) > 0) {
 *         answer = osc_index_step(buffer, kept + got, base, out, sizeof out, &more);
 *         if (osc_refusal(answer)) return FAILED;      // the recording is too long
 *         if (fwrite(out, OSC_ENTRY, osc_count(answer), index) != osc_count(answer)) return FAILED;
 *         base += osc_used(answer);                    // in the end: where the index goes no further
 *         if (osc_ended(more)) break;                  // the next frame is refused
 *         kept = kept + got - osc_used(answer);
 *         memmove(buffer, buffer + osc_used(answer), kept);
 *     }
 *     return ferror(recording) || fflush(index) != 0 ? FAILED : 0; */
uint64_t osc_index_step(const uint8_t *bytes, size_t bytes_len, uint64_t base, uint8_t *out, size_t out_len, uint64_t *more);

/* A step that checks an index: the records that osc_index_step has written afresh for a part of the recording, against as many bytes of the
 * index or, where it has no more, fewer. The first is record number `from`, which is the answer of the step before, and 0 at first. After
 * the last, what the index still has is checked against no bytes.
 * Bits 56 to 63 of the answer are 0, and bits 0 to 55 the number of the next record; or they are OSC_INDEX_DIFFERS, and bits 0 to 55 the
 * number of the first record that differs, is missing or is extra, where a part of one counts. OSC_TOO_LONG refuses a `from` or a
 * length of 2^55 or more.
 * With what the loop above has, `given` as long as `out`, and `from` 0 at first; DIFFERS is a number of the caller's own, and `checked`
 * says at which record:
 *
 *     while ((got = fread(buffer + kept, 1, sizeof buffer - kept, recording)) > 0) {
 *         answer = osc_index_step(buffer, kept + got, base, out, sizeof out, &more);
 *         if (osc_refusal(answer)) return FAILED;      // the recording is too long
 *         size = OSC_ENTRY * osc_count(answer);
 *         many = fread(given, 1, size, index);
 *         if (ferror(index)) return FAILED;
 *         checked = osc_index_check_step(out, size, given, many, from);
 *         if (osc_refusal(checked)) return DIFFERS;
 *         from = osc_record(checked);
 *         base += osc_used(answer);
 *         if (osc_ended(more)) break;
 *         kept = kept + got - osc_used(answer);
 *         memmove(buffer, buffer + osc_used(answer), kept);
 *     }
 *     many = fread(given, 1, sizeof given, index);     // the last step: what the index still has, which should be nothing
 *     if (ferror(recording) || ferror(index)) return FAILED;
 *     checked = osc_index_check_step(NULL, 0, given, many, from);
 *     return osc_refusal(checked) ? DIFFERS : 0; */
uint64_t osc_index_check_step(const uint8_t *fresh, size_t fresh_len, const uint8_t *given, size_t given_len, uint64_t from);

/* Record `k` of an index that was checked: the records of the cue's table in bits 32 to 55 and its length without the prefix in bits 0
 * to 31; bits 56 to 63 are the refusal's number, OSC_BAD_TABLE where the index has no such record. `*offset` is that of the cue's
 * prefix, and 0 where there is none; it is written by every call. `offset` must not be NULL and must not overlap the index. What an index
 * that was not checked says is the writer's own; OSC_BAD_TABLE is given there too, where a table would have 2^24 records or more. */
uint64_t osc_cue(const uint8_t *index, size_t index_len, uint64_t k, uint64_t *offset);

/* Encoders. They write the packet of `count` records over the first bytes of `out`; ranges lie in `source`.
 * A tree is at most OSC_DEEPEST deep, as for a decoder.
 * A table may come from anywhere. Each of its texts is read before it is known how long the result is, and many of them may have the same
 * range: 600 texts over the same 4 MiB take more than a second, and are refused then. Where a stranger's table is taken, bound the product
 * of `count` and `source_len`.
 * Bits 56 to 63 of the answer are the refusal's number; bits 0 to 31 the bytes written. */

/* One packet. */
uint64_t osc_encode(const uint8_t *table, size_t table_len, uint64_t count, const uint8_t *source, size_t source_len,
                    uint8_t *out, size_t out_len);

/* One packet for a stream of edition 1, with a length before a message and none before a bundle. */
uint64_t osc_encode_tcp(const uint8_t *table, size_t table_len, uint64_t count, const uint8_t *source,
                        size_t source_len, uint8_t *out, size_t out_len);

/* One packet for a stream of edition 2, with a length before a message and before a bundle. */
uint64_t osc_encode_tcp2(const uint8_t *table, size_t table_len, uint64_t count, const uint8_t *source,
                         size_t source_len, uint8_t *out, size_t out_len);

/* A text with its 1 to 4 NULs. */
uint64_t osc_encode_string(const uint8_t *text, size_t len, uint8_t *out, size_t out_len);

/* The next multiple of 4, or OSC_PAD_OVERFLOW, which is none. */
uint64_t osc_pad(uint64_t pos);

/* The kind of a record in the low byte, by that record's own rules; bits 56 to 63 are the refusal's number. */
uint64_t osc_look(const uint8_t *table, size_t table_len, uint64_t index);

/* The start of a record in bits 0 to 31; bits 56 to 63 are the refusal's number, OSC_BAD_TABLE where the table has no such record.
 * Nothing else of the record is looked at. */
uint64_t osc_start(const uint8_t *table, size_t table_len, uint64_t index);

/* Time tags. A tag is a number of 64 bits: seconds since 1900 in its upper half, and fractions of a second, 2^32 of them, in its lower
 * half. In a table it is the `a` and `b` of a record of kind 't' or '#': ((uint64_t)a << 32) + b. A Unix time is signed seconds since 1970
 * and nanoseconds. The rule says what a seconds field stands for: by rule A, which is rosc's, the seconds since 1900, up to the Unix second
 * 2,085,978,495 in 2036; by rule B, which is RFC 4330's, a field with its top bit clear is after the wrap of 2036, up to 4,233,462,143.
 * Nanoseconds become the nearest fraction, and a fraction the nearest nanoseconds, halves up; a nanosecond value comes back unchanged. The
 * tag (0, 1), "immediately", is a plain number here. */

/* The tag of a Unix time, by rule A and by rule B. 0, or the refusal's number in bits 56 to 63: OSC_NANOSECONDS, then OSC_TOO_LATE, then
 * OSC_TOO_EARLY. `*tag` is written by every call, and is 0 where it is refused. `tag` must not be NULL. */
uint64_t osc_tag_a(int64_t seconds, uint64_t nanos, uint64_t *tag);
uint64_t osc_tag_b(int64_t seconds, uint64_t nanos, uint64_t *tag);

/* The Unix time of a tag, by rule A and by rule B. The nanoseconds in bits 0 to 31, or OSC_TOO_EARLY in bits 56 to 63, and no other
 * refusal. The two highest fractions carry into the next second, also past the rule's last. `*seconds` is written by every call, and is 0
 * where it is refused. `seconds` must not be NULL. */
uint64_t osc_unix_a(uint64_t tag, int64_t *seconds);
uint64_t osc_unix_b(uint64_t tag, int64_t *seconds);

/* A tag moved on by an amount, modulo 2^64. The opposite of an amount, 0 - by, moves it back. */
uint64_t osc_shift(uint64_t tag, uint64_t by);

/* The difference of a tag from an old one, around the wrap, in fractions. Tags exactly 2^63 apart give INT64_MIN. */
int64_t osc_difference(uint64_t tag, uint64_t old);

/* Shifts the time tags of the first `count` records of a table by `by`, modulo 2^64: that of each bundle and of each 't'. 2^32 is
 * a second, and 0 - x goes back by x; the immediate tag (0, 1) is shifted like the rest. No other byte changes, and a well-formed table stays well formed.
 * Bits 0 to 31 of the answer are the tags moved; bits 56 to 63 the refusal's number: OSC_BAD_TABLE, and nothing is changed, where one of
 * these records does not exist or osc_look refuses it, and where `count` is 2^32 or more. Records after them are not looked at. */
uint64_t osc_shift_table(uint8_t *table, size_t table_len, uint64_t count, uint64_t by);

/* The version of the library, as a number that is made as OSC_VERSION is. It is never refused. */
uint64_t osc_version(void);

/* ---- a header and a library that fit */

/* Whether a library can be used through a header: both have the same major and, before 1.0, the same minor, and the library is not older
 * than the header. */
static inline int osc_version_fits(uint64_t header, uint64_t library) {
    const unsigned kept = (header >> 32) != 0 ? 32 : 16;
    return (header >> kept) == (library >> kept) && header <= library;
}

/* Whether the library that is linked can be used through this header: 1, or 0. A program that did not build the library itself asks
 * this before it calls another function. */
static inline int osc_fits(void) { return osc_version_fits(OSC_VERSION, osc_version()); }

/* ---- an answer, taken apart */

/* The refusal's number, of the call or of a frame (osc_stopped); 0 where there is an answer. */
static inline unsigned osc_refusal(uint64_t answer) { return (unsigned)(answer >> 56); }

/* The count of records that a decoder, osc_read_portion or osc_index_step wrote, or of the table of a cue. */
static inline uint32_t osc_count(uint64_t answer) { return (uint32_t)(answer >> 32) & 0xFFFFFFu; }

/* The input bytes that a decoder left over. */
static inline uint32_t osc_left(uint64_t answer) { return (uint32_t)answer; }

/* The bytes that osc_read_portion or osc_index_step used: those after them are to be kept. */
static inline uint32_t osc_used(uint64_t answer) { return (uint32_t)answer; }

/* Whether a list of edition 2 stopped at a frame that is refused: 1, with the packets before it in the table. 0 for every other answer,
 * and where the call is refused. */
static inline int osc_stopped(uint64_t answer) { return osc_refusal(answer) != 0 && osc_left(answer) != 0; }

/* Where the field began that was short, of what a decoder, osc_read_portion or osc_index_step wrote to `*more`, counted from the first byte
 * that the call was handed; 0 where the refusal is not one of 17 to 21. */
static inline uint32_t osc_field(uint64_t more) { return (uint32_t)(more >> 32) & 0xFFFFu; }

/* The padding bytes that were not zero, of what a decoder or osc_read_portion wrote to `*more`; 0 where the call is refused and for
 * Waiting. */
static inline uint32_t osc_dirty(uint64_t more) { return (uint32_t)more; }

/* Where the prefix began of the frame at which a list stopped, of what a decoder wrote to `*more`; 0 where none did. The same bits of what
 * osc_read_portion or osc_index_step wrote are another number, for osc_ended. */
static inline uint32_t osc_frame(uint64_t more) { return (uint32_t)(more >> 48); }

/* The number of the refusal of the frame that ends a stream or an index, of what osc_read_portion or osc_index_step wrote to `*more`; 0
 * where it goes on, and where the call is refused. The same bits of what a decoder wrote are an offset, for osc_frame. */
static inline unsigned osc_ended(uint64_t more) { return (unsigned)(more >> 48); }

/* Whether the frame after the bytes that osc_index_step used is not all there, of what it wrote to `*more`. */
static inline int osc_waits(uint64_t more) { return (int)(more & 1); }

/* The number of the next record that osc_index_check_step tells, or of the first that differs. */
static inline uint64_t osc_record(uint64_t answer) { return answer & 0xFFFFFFFFFFFFFFu; }

/* The length of a cue without its prefix. */
static inline uint32_t osc_cue_length(uint64_t answer) { return (uint32_t)answer; }

/* The bytes that an encoder wrote. */
static inline uint32_t osc_written(uint64_t answer) { return (uint32_t)answer; }

/* The tags that osc_shift_table moved. */
static inline uint32_t osc_moved(uint64_t answer) { return (uint32_t)answer; }

/* The kind that osc_look found. */
static inline uint8_t osc_kind(uint64_t answer) { return (uint8_t)answer; }

/* The offset that osc_start found: where the item's data began. */
static inline uint32_t osc_began(uint64_t answer) { return (uint32_t)answer; }

/* The nanoseconds that osc_unix_a or osc_unix_b found. */
static inline uint32_t osc_nanos(uint64_t answer) { return (uint32_t)answer; }

#ifdef __cplusplus
}
#endif
#endif
