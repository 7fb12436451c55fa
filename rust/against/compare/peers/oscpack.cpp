/* oscpack SEED COUNT: writes COUNT random packets, each after its length. */
#include "random.h"
#include <oscpack/osc/OscOutboundPacketStream.h>

using osc::OutboundPacketStream;

static void add_blob(OutboundPacketStream &to) {
    char bytes[16];
    const unsigned size = below(sizeof bytes + 1);
    for (unsigned i = 0; i < size; i++) bytes[i] = (char)next();
    to << osc::Blob(bytes, size);
}

static void add_argument(OutboundPacketStream &to, int deep) {
    switch (below(15)) {
    case 0: to << (osc::int32)next(); break;
    case 1: to << any_float(); break;
    case 2: to << text(); break;
    case 3: add_blob(to); break;
    case 4: to << (osc::int64)next(); break;
    case 5: to << osc::TimeTag(next()); break;
    case 6: to << any_double(); break;
    case 7: to << (char)below(128); break;
    case 8: to << osc::MidiMessage((osc::uint32)next()); break;
    case 9: to << osc::RgbaColor((osc::uint32)next()); break;
    case 10: to << true; break;
    case 11: to << false; break;
    case 12: to << osc::OscNil; break;
    case 13: to << osc::Infinitum; break;
    default:
        to << osc::BeginArray;
        for (unsigned n = deep > 0 ? below(4) : 0; n > 0; n--) add_argument(to, deep - 1);
        to << osc::EndArray;
    }
}

static void add_message(OutboundPacketStream &to) {
    to << osc::BeginMessage(address());
    for (unsigned n = below(7); n > 0; n--) add_argument(to, 2);
    /* A symbol is no tag of the crate. */
    if (below(40) == 0) to << osc::Symbol(text());
    to << osc::EndMessage;
}

static void add_bundle(OutboundPacketStream &to, int deep) {
    to << osc::BeginBundle(next());
    for (unsigned n = below(4); n > 0; n--) {
        if (deep > 0 && below(2) == 0) {
            add_bundle(to, deep - 1);
        } else {
            add_message(to);
        }
    }
    to << osc::EndBundle;
}

int main(int many, char **words) {
    if (many != 3) return 2;
    start(words[1]);
    static char memory[1 << 17];
    for (long n = strtol(words[2], NULL, 10); n > 0; n--) {
        OutboundPacketStream to(memory, sizeof memory);
        if (below(2) == 0) {
            add_message(to);
        } else {
            add_bundle(to, 3);
        }
        put(to.Data(), to.Size());
    }
    return 0;
}
