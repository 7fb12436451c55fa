/* liblo SEED COUNT: writes COUNT random packets, each after its length. */
#include "random.h"
#include <lo/lo.h>

static lo_timetag any_time(void) {
    lo_timetag time = {(uint32_t)next(), (uint32_t)next()};
    return time;
}

/* liblo has no empty blobs. */
static void add_blob(lo_message message) {
    unsigned char bytes[16];
    int size = 1 + (int)below(sizeof bytes);
    for (int i = 0; i < size; i++) bytes[i] = (unsigned char)next();
    lo_blob blob = lo_blob_new(size, bytes);
    lo_message_add_blob(message, blob);
    lo_blob_free(blob);
}

static void add_argument(lo_message message) {
    uint8_t midi[4] = {(uint8_t)next(), (uint8_t)next(), (uint8_t)next(), (uint8_t)next()};
    switch (below(13)) {
    case 0: lo_message_add_int32(message, (int32_t)next()); break;
    case 1: lo_message_add_float(message, any_float()); break;
    case 2: lo_message_add_string(message, text()); break;
    case 3: add_blob(message); break;
    case 4: lo_message_add_int64(message, (int64_t)next()); break;
    case 5: lo_message_add_timetag(message, any_time()); break;
    case 6: lo_message_add_double(message, any_double()); break;
    case 7: lo_message_add_char(message, (char)below(128)); break;
    case 8: lo_message_add_midi(message, midi); break;
    case 9: lo_message_add_true(message); break;
    case 10: lo_message_add_false(message); break;
    case 11: lo_message_add_nil(message); break;
    default: lo_message_add_infinitum(message); break;
    }
}

static lo_message any_message(void) {
    lo_message message = lo_message_new();
    for (unsigned n = below(7); n > 0; n--) add_argument(message);
    /* A symbol is no tag of the crate. */
    if (below(40) == 0) lo_message_add_symbol(message, text());
    return message;
}

static lo_bundle any_bundle(int deep) {
    lo_bundle bundle = lo_bundle_new(any_time());
    for (unsigned n = below(4); n > 0; n--) {
        if (deep > 0 && below(2) == 0) {
            lo_bundle_add_bundle(bundle, any_bundle(deep - 1));
        } else {
            lo_bundle_add_message(bundle, address(), any_message());
        }
    }
    return bundle;
}

static void put_message(void) {
    size_t size = 0;
    lo_message message = any_message();
    void *packet = lo_message_serialise(message, address(), NULL, &size);
    put(packet, size);
    free(packet);
    lo_message_free(message);
}

static void put_bundle(void) {
    size_t size = 0;
    lo_bundle bundle = any_bundle(3);
    void *packet = lo_bundle_serialise(bundle, NULL, &size);
    put(packet, size);
    free(packet);
    lo_bundle_free_recursive(bundle);
}

int main(int many, char **words) {
    if (many != 3) return 2;
    start(words[1]);
    for (long n = strtol(words[2], NULL, 10); n > 0; n--) {
        if (below(2) == 0) {
            put_message();
        } else {
            put_bundle();
        }
    }
    return 0;
}
