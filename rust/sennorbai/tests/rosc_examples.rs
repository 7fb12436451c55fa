// The examples are from the documentation of rosc 0.11.4, copyright (c) 2016 Andreas Linz, under MIT or Apache-2.0: see NOTICE.
//! rosc's own documentation examples, word for word, with the `use` line changed. Those of its module `address`, which is not
//! here, are left out.
#![cfg(feature = "std")]
#![cfg_attr(rustfmt, rustfmt_skip)]

use sennorbai::rosc_compat as rosc;

/// types.rs, `OscTime`.
#[test]
fn osc_time() {
    #[cfg(feature = "std")]
    {
        use rosc::OscTime;
        use std::{convert::TryFrom, time::UNIX_EPOCH};

        assert_eq!(
            OscTime::try_from(UNIX_EPOCH).unwrap(),
            OscTime::from((2_208_988_800, 0))
        );
    }
}

/// encoder.rs, `encode`.
#[test]
fn encode() {
    use rosc::{OscPacket,OscMessage,OscType};
    use rosc::encoder;

    let packet = OscPacket::Message(OscMessage{
            addr: "/greet/me".to_string(),
            args: vec![OscType::String("hi!".to_string())]
        }
    );
    assert!(encoder::encode(&packet).is_ok())
}

/// encoder.rs, `encode_into`.
#[test]
fn encode_into() {
    use rosc::{OscPacket,OscMessage,OscType};
    use rosc::encoder;

    let mut bytes = Vec::new();
    let packet = OscPacket::Message(OscMessage{
            addr: "/greet/me".to_string(),
            args: vec![OscType::String("hi!".to_string())]
        }
    );
    assert!(encoder::encode_into(&packet, &mut bytes).is_ok())
}

/// encoder.rs, `pad`.
#[test]
fn pad() {
    use rosc::encoder;

    let pos: u64 = 10;
    assert_eq!(12u64, encoder::pad(pos))
}
