/* The codec, over include/osc.h:
 *
 *     codec read         packets, each from a UDP packet, to trees; what is refused to `refused N`, or to
 *                        `refused N at M` where a field at M was short, bytes left over to `left N`
 *     codec write        trees to packets
 *     codec write-tcp    trees to what goes over a stream
 *     codec stream       one stream, in a single packet, to trees by the list call, and `left N`; `waiting N` where it has none
 *     codec first        the same by the call for the first packet */
#define _GNU_SOURCE
#include "../../include/osc.h"
#include "tree.h"

static uint8_t packet[LONGEST + 1], table[OSC_RECORD * LONGEST], out[LONGEST];

static void say_record(const uint8_t *record, const uint8_t *source) {
    uint8_t kind = record[0];
    uint32_t a = word_at(record + 8), b = word_at(record + 12);
    switch (kind) {
    case '/': case 's': case 'b': say_bytes(kind, source + a, b); break;
    case '#': case 'h': case 'd': case 't': say_pair(kind, a, b); break;
    case 'i': case 'f': case 'c': case 'r': case 'm': say_word(kind, a); break;
    default: printf("%c ", kind);
    }
}

/* The trees of `count` records, each on a line. */
static void say_table(uint32_t count, const uint8_t *source) {
    static uint32_t ends[LONGEST];
    size_t open = 0;
    for (uint32_t i = 0; i < count; i++) {
        const uint8_t *record = table + OSC_RECORD * (size_t)i;
        say_record(record, source);
        if (strchr("/#[", record[0])) ends[open++] = word_at(record + 4);
        while (open > 0 && ends[open - 1] == i + 1) {
            say_close();
            if (--open == 0) putchar('\n');
        }
    }
}

static void say_refusal(uint64_t answer, uint64_t more) {
    printf("refused %u", osc_refusal(answer));
    if (osc_refusal(answer) >= OSC_SHORT_ADDRESS) printf(" at %u", osc_field(more));
    putchar('\n');
}

static void read_all(void) {
    size_t length;
    while (get_packet(packet, &length)) {
        uint64_t more, answer = osc_decode_udp(packet, length, table, sizeof table, OSC_DEEPEST, &more);
        if (osc_refusal(answer)) {
            say_refusal(answer, more);
        } else if (osc_left(answer)) {
            printf("left %u: ", osc_left(answer));
            say_table(osc_count(answer), packet);
        } else {
            say_table(osc_count(answer), packet);
        }
    }
}

static void read_stream(int list) {
    size_t length;
    if (!get_packet(packet, &length)) exit(3);
    uint64_t more, answer = list ? osc_decode_tcp_vec(packet, length, table, sizeof table, OSC_DEEPEST, &more)
                                 : osc_decode_tcp(packet, length, table, sizeof table, OSC_DEEPEST, &more);
    if (osc_refusal(answer)) {
        say_refusal(answer, more);
        return;
    }
    say_table(osc_count(answer), packet);
    printf(osc_count(answer) ? "left %u\n" : "waiting %u\n", osc_left(answer));
}

static void write_all(int tcp) {
    static token t;
    static uint8_t source[LONGEST];
    static uint32_t stack[LONGEST];
    for (const char *line; (line = get_line());) {
        size_t open = 0, used = 0;
        uint32_t count = 0;
        while (next_token(&line, &t)) {
            if (t.kind == '.') {
                put_word(table + OSC_RECORD * (size_t)stack[--open] + 4, count);
                continue;
            }
            uint8_t *record = table + OSC_RECORD * (size_t)count;
            memset(record, 0, OSC_RECORD);
            record[0] = (uint8_t)t.kind;
            if (strchr("/#[", t.kind)) stack[open++] = count;
            put_word(record + 4, ++count);
            if (strchr("/sb", t.kind)) {
                memcpy(source + used, t.bytes, t.length);
                t.high = (uint32_t)used, t.low = (uint32_t)t.length;
                used += t.length;
            }
            put_word(record + 8, t.high);
            put_word(record + 12, t.low);
        }
        uint64_t answer = tcp ? osc_encode_tcp(table, sizeof table, count, source, used, out, sizeof out)
                              : osc_encode(table, sizeof table, count, source, used, out, sizeof out);
        if (osc_refusal(answer)) {
            fprintf(stderr, "codec: a tree is refused with %u\n", osc_refusal(answer));
            exit(3);
        }
        put_packet(out, osc_written(answer));
    }
}

int main(int many, char **words) {
    const char *what = many == 2 ? words[1] : "";
    if (!strcmp(what, "read")) read_all();
    else if (!strcmp(what, "stream")) read_stream(1);
    else if (!strcmp(what, "first")) read_stream(0);
    else if (!strcmp(what, "write")) write_all(0);
    else if (!strcmp(what, "write-tcp")) write_all(1);
    else return 2;
    return 0;
}
