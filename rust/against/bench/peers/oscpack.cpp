// oscpack: it reads in place and writes from values, which are taken out of the table before.
#include "record.h"
#include <oscpack/osc/OscOutboundPacketStream.h>
#include <oscpack/osc/OscReceivedElements.h>
#include <string>
#include <vector>

// Where oscpack's own int32 is wider, as on aarch64, it cannot read a packet: the shim then does not compile and is not measured.
static_assert(sizeof(osc::int32) == 4, "oscpack does not fit this processor");

static uint64_t argument(const osc::ReceivedMessageArgument &x) {
    const void *data;
    osc::osc_bundle_element_size_t size;
    switch (x.TypeTag()) {
    case 'i': return (uint32_t)x.AsInt32();
    case 'f': return peer_float(x.AsFloat());
    case 's': return peer_text(x.AsString());
    case 'b': return x.AsBlob(data, size), peer_range(data, size);
    case 't': return x.AsTimeTag();
    case 'h': return (uint64_t)x.AsInt64();
    case 'd': return peer_double(x.AsDouble());
    case 'c': return (uint8_t)x.AsChar();
    case 'r': return x.AsRgbaColor();
    case 'm': return x.AsMidiMessage();
    default: return 0;
    }
}

static uint64_t read_message(const osc::ReceivedMessage &m) {
    uint64_t sum = '/' + peer_text(m.AddressPattern());
    for (auto i = m.ArgumentsBegin(); i != m.ArgumentsEnd(); ++i)
        if (i->TypeTag() != ']') sum += (uint8_t)i->TypeTag() + argument(*i);
    return sum;
}

static uint64_t read_bundle(const osc::ReceivedBundle &b) {
    uint64_t sum = '#' + b.TimeTag();
    for (auto i = b.ElementsBegin(); i != b.ElementsEnd(); ++i)
        sum += i->IsBundle() ? read_bundle(osc::ReceivedBundle(*i)) : read_message(osc::ReceivedMessage(*i));
    return sum;
}

// Reads a packet and every argument of it. It answers whether the packet is accepted.
extern "C" int peer_oscpack_decode(const uint8_t *data, size_t n, uint64_t *sum) try {
    osc::ReceivedPacket p((const char *)data, n);
    *sum = p.IsBundle() ? read_bundle(osc::ReceivedBundle(p)) : read_message(osc::ReceivedMessage(p));
    return 1;
} catch (const osc::Exception &) {
    return 0;
}

namespace {

// One step of writing: a record, with its text ended by a NUL; ')', ']' and '}' end a message, an array and a bundle.
struct Step {
    uint8_t kind;
    uint32_t a, b;
    std::string text;
};

using Steps = std::vector<Step>;

void steps_of(const uint8_t *table, size_t at, const uint8_t *source, Steps &steps) {
    peer_record own = peer_record_at(table, at);
    bool ranged = own.kind == '/' || own.kind == 's' || own.kind == 'b';
    steps.push_back({own.kind, own.a, own.b, ranged ? std::string((const char *)source + own.a, own.b) : ""});
    for (size_t i = at + 1; i < own.end; i = peer_record_at(table, i).end) steps_of(table, i, source, steps);
    if (own.kind == '/') steps.push_back({')', 0, 0, ""});
    if (own.kind == '[') steps.push_back({']', 0, 0, ""});
    if (own.kind == '#') steps.push_back({'}', 0, 0, ""});
}

void write(osc::OutboundPacketStream &p, const Step &x) {
    switch (x.kind) {
    case '#': p << osc::BundleInitiator(peer_pair(x.a, x.b)); break;
    case '}': p << osc::EndBundle; break;
    case '/': p << osc::BeginMessage(x.text.c_str()); break;
    case ')': p << osc::EndMessage; break;
    case '[': p << osc::BeginArray; break;
    case ']': p << osc::EndArray; break;
    case 'i': p << (osc::int32)x.a; break;
    case 'f': p << peer_as_float(x.a); break;
    case 's': p << x.text.c_str(); break;
    case 'b': p << osc::Blob(x.text.data(), x.b); break;
    case 't': p << osc::TimeTag(peer_pair(x.a, x.b)); break;
    case 'h': p << (osc::int64)peer_pair(x.a, x.b); break;
    case 'd': p << peer_as_double(peer_pair(x.a, x.b)); break;
    case 'c': p << (char)x.a; break;
    case 'r': p << osc::RgbaColor(x.a); break;
    case 'm': p << osc::MidiMessage(x.a); break;
    case 'T': p << true; break;
    case 'F': p << false; break;
    case 'N': p << osc::OscNil; break;
    default: p << osc::Infinitum; break;
    }
}

} // namespace

// Takes the values out of a table. They live as long as the program.
extern "C" Steps *peer_oscpack_build(const uint8_t *table, const uint8_t *source) {
    Steps *steps = new Steps;
    steps_of(table, 0, source, *steps);
    return steps;
}

// Writes the values and answers the packet's length, or 0 where oscpack refuses.
extern "C" size_t peer_oscpack_encode(const Steps *steps, uint8_t *out, size_t out_len) try {
    osc::OutboundPacketStream p((char *)out, out_len);
    for (const Step &x : *steps) write(p, x);
    return p.Size();
} catch (const osc::Exception &) {
    return 0;
}
