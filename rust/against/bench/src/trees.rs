//! The two sides that make trees of rosc's types, by the same code.

/// The crate rosc.
pub mod crate_rosc {
    use rosc::{decoder, encoder, OscPacket, OscType};
    include!("rosc_shaped.rs");
}

/// The port with rosc's types and signatures.
pub mod compat {
    use sennorbai::rosc_compat::{decoder, encoder, OscPacket, OscType};
    include!("rosc_shaped.rs");
}
