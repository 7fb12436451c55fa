//! Packets of the crate as packets of `rosc_compat`, and back.

macro_rules! conversion {
    ($name:ident, $from:path, $to:path) => {
        pub mod $name {
            use $from as from;
            use $to as to;

            pub fn packet(packet: &from::OscPacket) -> to::OscPacket {
                match packet {
                    from::OscPacket::Message(message) => {
                        let args = message.args.iter().map(value).collect();
                        to::OscPacket::Message(to::OscMessage { addr: message.addr.clone(), args })
                    }
                    from::OscPacket::Bundle(bundle) => {
                        let content = bundle.content.iter().map(packet_of).collect();
                        to::OscPacket::Bundle(to::OscBundle { timetag: time(bundle.timetag), content })
                    }
                }
            }

            fn packet_of(inner: &from::OscPacket) -> to::OscPacket {
                packet(inner)
            }

            pub fn time(time: from::OscTime) -> to::OscTime {
                to::OscTime { seconds: time.seconds, fractional: time.fractional }
            }

            pub fn value(of: &from::OscType) -> to::OscType {
                match of {
                    from::OscType::Int(x) => to::OscType::Int(*x),
                    from::OscType::Float(x) => to::OscType::Float(*x),
                    from::OscType::String(x) => to::OscType::String(x.clone()),
                    from::OscType::Blob(x) => to::OscType::Blob(x.clone()),
                    from::OscType::Time(x) => to::OscType::Time(time(*x)),
                    from::OscType::Long(x) => to::OscType::Long(*x),
                    from::OscType::Double(x) => to::OscType::Double(*x),
                    from::OscType::Char(x) => to::OscType::Char(*x),
                    from::OscType::Color(x) => to::OscType::Color(color(x)),
                    from::OscType::Midi(x) => to::OscType::Midi(midi(x)),
                    from::OscType::Bool(x) => to::OscType::Bool(*x),
                    from::OscType::Nil => to::OscType::Nil,
                    from::OscType::Inf => to::OscType::Inf,
                    from::OscType::Array(x) => {
                        to::OscType::Array(to::OscArray { content: x.content.iter().map(value).collect() })
                    }
                }
            }

            pub fn color(x: &from::OscColor) -> to::OscColor {
                to::OscColor { red: x.red, green: x.green, blue: x.blue, alpha: x.alpha }
            }

            pub fn midi(x: &from::OscMidiMessage) -> to::OscMidiMessage {
                to::OscMidiMessage { port: x.port, status: x.status, data1: x.data1, data2: x.data2 }
            }
        }
    };
}

conversion!(to_compat, rosc, sennorbai::rosc_compat);
conversion!(to_rosc, sennorbai::rosc_compat, rosc);
