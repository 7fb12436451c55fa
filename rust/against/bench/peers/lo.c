/* liblo: reading of messages and writing of packets that are built before. Its reader of bundles is inside its server and can't
 * be called, so bundles are walked here. */
#include "record.h"
#include <lo/lo.h>
#include <lo/lo_lowlevel.h>
#include <stdlib.h>

static uint64_t argument(char kind, lo_arg *x) {
    switch (kind) {
    case 'i': return (uint32_t)x->i;
    case 'f': return peer_float(x->f);
    case 's': return peer_text(&x->s);
    case 'b': return peer_range(lo_blob_dataptr((lo_blob)x), lo_blob_datasize((lo_blob)x));
    case 't': return peer_pair(x->t.sec, x->t.frac);
    case 'h': return (uint64_t)x->h;
    case 'd': return peer_double(x->d);
    case 'c': return x->c;
    case 'm': return peer_word(x->m);
    default: return 0;
    }
}

static int read_message(void *data, size_t n, uint64_t *sum) {
    lo_message m = lo_message_deserialise(data, n, NULL);
    if (!m) return 0;
    *sum += '/' + peer_text(lo_get_path(data, n));
    const char *types = lo_message_get_types(m);
    lo_arg **args = lo_message_get_argv(m);
    for (int i = 0; i < lo_message_get_argc(m); i++) *sum += (uint8_t)types[i] + argument(types[i], args[i]);
    lo_message_free(m);
    return 1;
}

static int read_packet(uint8_t *data, size_t n, uint64_t *sum) {
    if (n < 8 || memcmp(data, "#bundle", 8) != 0) return read_message(data, n, sum);
    if (n < 16) return 0;
    *sum += '#' + peer_pair(peer_word(data + 8), peer_word(data + 12));
    for (size_t at = 16; at < n;) {
        if (n - at < 4) return 0;
        size_t size = peer_word(data + at);
        if (n - at - 4 < size || !read_packet(data + at + 4, size, sum)) return 0;
        at += 4 + size;
    }
    return 1;
}

/* Reads a packet and every argument of it. It answers whether the packet is accepted. */
int peer_lo_decode(uint8_t *data, size_t n, uint64_t *sum) {
    *sum = 0;
    return read_packet(data, n, sum);
}

/* A built packet: a message with its path, or a bundle. */
typedef struct {
    lo_message message;
    char *path;
    lo_bundle bundle;
} peer_lo;

static char *copy(const uint8_t *source, peer_record r) {
    char *text = malloc(r.b + 1);
    memcpy(text, source + r.a, r.b);
    text[r.b] = 0;
    return text;
}

static void add_range(lo_message m, peer_record r, const uint8_t *source) {
    if (r.kind == 's') {
        char *text = copy(source, r);
        lo_message_add_string(m, text);
        free(text);
    } else {
        lo_blob blob = lo_blob_new((int32_t)r.b, source + r.a);
        lo_message_add_blob(m, blob);
        lo_blob_free(blob);
    }
}

/* Adds an argument; liblo has no arrays and no colours. */
static int add(lo_message m, peer_record r, const uint8_t *source) {
    uint8_t midi[4] = {r.a >> 24, r.a >> 16, r.a >> 8, r.a};
    lo_timetag time = {r.a, r.b};
    switch (r.kind) {
    case 'i': return lo_message_add_int32(m, (int32_t)r.a) == 0;
    case 'f': return lo_message_add_float(m, peer_as_float(r.a)) == 0;
    case 's': case 'b': return add_range(m, r, source), 1;
    case 't': return lo_message_add_timetag(m, time) == 0;
    case 'h': return lo_message_add_int64(m, (int64_t)peer_pair(r.a, r.b)) == 0;
    case 'd': return lo_message_add_double(m, peer_as_double(peer_pair(r.a, r.b))) == 0;
    case 'c': return lo_message_add_char(m, (char)r.a) == 0;
    case 'm': return lo_message_add_midi(m, midi) == 0;
    case 'T': return lo_message_add_true(m) == 0;
    case 'F': return lo_message_add_false(m) == 0;
    case 'N': return lo_message_add_nil(m) == 0;
    case 'I': return lo_message_add_infinitum(m) == 0;
    default: return 0;
    }
}

static int build(const uint8_t *table, size_t at, const uint8_t *source, peer_lo *built) {
    peer_record own = peer_record_at(table, at);
    if (own.kind == '/') {
        built->path = copy(source, own);
        built->message = lo_message_new();
        for (size_t i = at + 1; i < own.end; i++)
            if (!add(built->message, peer_record_at(table, i), source)) return 0;
        return 1;
    }
    lo_timetag time = {own.a, own.b};
    built->bundle = lo_bundle_new(time);
    for (size_t i = at + 1; i < own.end; i = peer_record_at(table, i).end) {
        peer_lo inner = {0};
        if (!build(table, i, source, &inner)) return 0;
        if (inner.bundle) lo_bundle_add_bundle(built->bundle, inner.bundle);
        else lo_bundle_add_message(built->bundle, inner.path, inner.message);
    }
    return 1;
}

/* Builds the packet of a table once; null where liblo has no such argument. What is built lives as long as the program. */
peer_lo *peer_lo_build(const uint8_t *table, const uint8_t *source) {
    peer_lo *built = calloc(1, sizeof *built);
    return build(table, 0, source, built) ? built : NULL;
}

/* Writes a built packet and answers its length. */
size_t peer_lo_encode(peer_lo *built, uint8_t *out) {
    size_t n = 0;
    if (built->bundle) lo_bundle_serialise(built->bundle, out, &n);
    else lo_message_serialise(built->message, built->path, out, &n);
    return n;
}
