// oscpack: `oscpack read` and `oscpack write`. Where its own int32 is wider than 4 bytes, as on aarch64, this does not compile.
#include "tree.h"
#include <oscpack/osc/OscOutboundPacketStream.h>
#include <oscpack/osc/OscReceivedElements.h>

static_assert(sizeof(osc::int32) == 4, "oscpack does not fit this processor");

static uint64_t pair(const token &t) { return (uint64_t)t.high << 32 | t.low; }
static void say_long(char kind, uint64_t x) { say_pair(kind, (uint32_t)(x >> 32), (uint32_t)x); }

static void say_argument(const osc::ReceivedMessageArgument &x) {
    char kind = x.TypeTag();
    const void *data;
    osc::osc_bundle_element_size_t size;
    float f;
    double d;
    uint32_t word;
    uint64_t bits;
    switch (kind) {
    case 'i': say_word(kind, (uint32_t)x.AsInt32()); break;
    case 'f': f = x.AsFloat(), memcpy(&word, &f, 4), say_word(kind, word); break;
    case 's': say_bytes(kind, x.AsString(), strlen(x.AsString())); break;
    case 'S': say_bytes(kind, x.AsSymbol(), strlen(x.AsSymbol())); break;
    case 'b': x.AsBlob(data, size), say_bytes(kind, data, size); break;
    case 't': say_long(kind, x.AsTimeTag()); break;
    case 'h': say_long(kind, (uint64_t)x.AsInt64()); break;
    case 'd': d = x.AsDouble(), memcpy(&bits, &d, 8), say_long(kind, bits); break;
    case 'c': say_word(kind, (uint8_t)x.AsChar()); break;
    case 'r': say_word(kind, x.AsRgbaColor()); break;
    case 'm': say_word(kind, x.AsMidiMessage()); break;
    case ']': say_close(); break;
    default: printf("%c ", kind);
    }
}

static void say_message(const osc::ReceivedMessage &m) {
    say_bytes('/', m.AddressPattern(), strlen(m.AddressPattern()));
    for (auto i = m.ArgumentsBegin(); i != m.ArgumentsEnd(); ++i) say_argument(*i);
    say_close();
}

static void say_bundle(const osc::ReceivedBundle &b) {
    say_long('#', b.TimeTag());
    for (auto i = b.ElementsBegin(); i != b.ElementsEnd(); ++i) {
        if (i->IsBundle()) say_bundle(osc::ReceivedBundle(*i));
        else say_message(osc::ReceivedMessage(*i));
    }
    say_close();
}

static void read_all() {
    static uint8_t packet[LONGEST + 1];
    size_t length;
    while (get_packet(packet, &length)) {
        try {
            osc::ReceivedPacket p((const char *)packet, (osc::osc_bundle_element_size_t)length);
            if (p.IsBundle()) say_bundle(osc::ReceivedBundle(p));
            else say_message(osc::ReceivedMessage(p));
        } catch (const osc::Exception &) {
            printf("refused");
        }
        putchar('\n');
    }
}

static void add(osc::OutboundPacketStream &p, const token &t) {
    uint64_t bits = pair(t);
    float f;
    double d;
    memcpy(&f, &t.high, 4);
    memcpy(&d, &bits, 8);
    switch (t.kind) {
    case '#': p << osc::BundleInitiator(bits); break;
    case '/': p << osc::BeginMessage((const char *)t.bytes); break;
    case '[': p << osc::BeginArray; break;
    case 'i': p << (osc::int32)t.high; break;
    case 'f': p << f; break;
    case 's': p << (const char *)t.bytes; break;
    case 'b': p << osc::Blob(t.bytes, (osc::osc_bundle_element_size_t)t.length); break;
    case 't': p << osc::TimeTag(bits); break;
    case 'h': p << (osc::int64)bits; break;
    case 'd': p << d; break;
    case 'c': p << (char)t.high; break;
    case 'r': p << osc::RgbaColor(t.high); break;
    case 'm': p << osc::MidiMessage(t.high); break;
    case 'T': p << true; break;
    case 'F': p << false; break;
    case 'N': p << osc::OscNil; break;
    default: p << osc::Infinitum; break;
    }
}

static void write_all() {
    static token t;
    static char out[LONGEST], open[LONGEST];
    for (const char *line; (line = get_line());) {
        osc::OutboundPacketStream p(out, sizeof out);
        size_t deep = 0;
        while (next_token(&line, &t)) {
            if (t.kind != '.') {
                add(p, t);
                if (strchr("/#[", t.kind)) open[deep++] = t.kind;
                continue;
            }
            switch (open[--deep]) {
            case '/': p << osc::EndMessage; break;
            case '#': p << osc::EndBundle; break;
            default: p << osc::EndArray;
            }
        }
        put_packet(p.Data(), p.Size());
    }
}

int main(int many, char **words) {
    const char *what = many == 2 ? words[1] : "";
    if (!strcmp(what, "read")) read_all();
    else if (!strcmp(what, "write")) write_all();
    else return 2;
    return 0;
}
