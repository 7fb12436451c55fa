/* liblo, by its library: `liblo read` gives packets to a server's dispatch and to lo_message_deserialise, `liblo write` makes packets. */
#define _GNU_SOURCE
#include "tree.h"
#include <lo/lo.h>

static void say_argument(char kind, lo_arg *x) {
    switch (kind) {
    case 's': case 'S': say_bytes(kind, &x->s, strlen(&x->s)); break;
    case 'b': say_bytes(kind, lo_blob_dataptr((lo_blob)x), lo_blob_datasize((lo_blob)x)); break;
    case 'c': say_word(kind, x->c); break;
    case 'i': case 'f': say_word(kind, (uint32_t)x->i); break;
    case 'h': case 'd': say_pair(kind, (uint32_t)((uint64_t)x->h >> 32), (uint32_t)x->h); break;
    case 't': say_pair(kind, x->t.sec, x->t.frac); break;
    case 'm': say_word(kind, word_at(x->m)); break;
    default: printf("%c ", kind);
    }
}

static void say_arguments(const char *types, lo_arg **args, int count) {
    for (int i = 0; i < count; i++) say_argument(types[i], args[i]);
    say_close();
}

static int on_message(const char *path, const char *types, lo_arg **args, int count, lo_message m, void *own) {
    (void)m, (void)own;
    say_bytes('/', path, strlen(path));
    say_arguments(types, args, count);
    return 0;
}

static int on_start(lo_timetag time, void *own) {
    (void)own;
    say_pair('#', time.sec, time.frac);
    return 0;
}

static int on_end(void *own) {
    (void)own;
    say_close();
    return 0;
}

/* A message is read by lo_message_deserialise too, and is said only if both agree that there is one. */
static void read_all(void) {
    static uint8_t packet[LONGEST + 1];
    size_t length;
    lo_server server = lo_server_new_with_proto(NULL, LO_UDP, NULL);
    if (!server) exit(3);
    lo_server_enable_queue(server, 0, 0);
    lo_server_add_method(server, NULL, NULL, on_message, NULL);
    lo_server_add_bundle_handlers(server, on_start, on_end, NULL);
    while (get_packet(packet, &length)) {
        int bundle = length >= 8 && memcmp(packet, "#bundle", 8) == 0;
        lo_message m = bundle ? NULL : lo_message_deserialise(packet, length, NULL);
        if (!bundle && !m) {
            printf("refused\n");
            continue;
        }
        if (m) lo_message_free(m);
        if (lo_server_dispatch_data(server, packet, length) < 0) printf("refused");
        putchar('\n');
    }
    lo_server_free(server);
}

static void add(lo_message m, const token *t) {
    uint64_t pair = (uint64_t)t->high << 32 | t->low;
    float f;
    double d;
    lo_timetag time = {t->high, t->low};
    memcpy(&f, &t->high, 4);
    memcpy(&d, &pair, 8);
    switch (t->kind) {
    case 'i': lo_message_add_int32(m, (int32_t)t->high); break;
    case 'f': lo_message_add_float(m, f); break;
    case 's': lo_message_add_string(m, (const char *)t->bytes); break;
    case 'S': lo_message_add_symbol(m, (const char *)t->bytes); break;
    case 'b': {
        lo_blob blob = lo_blob_new((int32_t)t->length, t->bytes);
        lo_message_add_blob(m, blob);
        lo_blob_free(blob);
        break;
    }
    case 'h': lo_message_add_int64(m, (int64_t)pair); break;
    case 'd': lo_message_add_double(m, d); break;
    case 't': lo_message_add_timetag(m, time); break;
    case 'c': lo_message_add_char(m, (char)t->high); break;
    case 'm': lo_message_add_midi(m, (uint8_t *)t->bytes); break;
    case 'T': lo_message_add_true(m); break;
    case 'F': lo_message_add_false(m); break;
    case 'N': lo_message_add_nil(m); break;
    case 'I': lo_message_add_infinitum(m); break;
    default: fprintf(stderr, "liblo: no argument %c\n", t->kind), exit(3);
    }
}

/* The message that a token begins, whose arguments follow. */
static lo_message message(const char **line) {
    static token t;
    lo_message m = lo_message_new();
    while (next_token(line, &t) && t.kind != '.') add(m, &t);
    return m;
}

static lo_bundle bundle(const char **line, lo_timetag time) {
    static token t;
    lo_bundle b = lo_bundle_new(time);
    while (next_token(line, &t) && t.kind != '.') {
        if (t.kind == '#') {
            lo_timetag inner = {t.high, t.low};
            lo_bundle_add_bundle(b, bundle(line, inner));
        } else {
            char *path = strdup((const char *)t.bytes);
            lo_bundle_add_message(b, path, message(line));
        }
    }
    return b;
}

static void write_all(void) {
    static token t;
    static uint8_t out[LONGEST];
    for (const char *line; (line = get_line());) {
        size_t length = 0;
        if (!next_token(&line, &t)) exit(3);
        if (t.kind == '#') {
            lo_timetag time = {t.high, t.low};
            lo_bundle b = bundle(&line, time);
            lo_bundle_serialise(b, out, &length);
            lo_bundle_free_recursive(b);
        } else {
            char *path = strdup((const char *)t.bytes);
            lo_message m = message(&line);
            lo_message_serialise(m, path, out, &length);
            lo_message_free(m);
            free(path);
        }
        put_packet(out, length);
    }
}

int main(int many, char **words) {
    const char *what = many == 2 ? words[1] : "";
    if (!strcmp(what, "read")) read_all();
    else if (!strcmp(what, "write")) write_all();
    else return 2;
    return 0;
}
