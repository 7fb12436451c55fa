//! Goes through a recording as the recorder does: frames end to end in a file, each a 4-byte length and a packet. Every packet
//! is decoded into a lent table, its values are looked at, and it is written back and compared with the recording.
//!
//!     cargo run --example recording -- FILE

use sennorbai::{decode_tcp, encode_tcp, Decoded, Edition, Value, DEEPEST, LONGEST, RECORD};
use std::error::Error;
use std::io::{stdout, Write};

/// What a recording holds, and how many of its packets came back byte for byte.
#[derive(Debug, Default, PartialEq)]
pub struct Figures {
    pub packets: usize,
    pub records: usize,
    pub same: usize,
}

fn main() -> Result<(), Box<dyn Error>> {
    let path = std::env::args().nth(1).ok_or("the recording's file has to be named")?;
    let figures = go_through(&std::fs::read(path)?, &mut stdout().lock())?;
    println!("{} packets, {} records, {} came back the same", figures.packets, figures.records, figures.same);
    Ok(())
}

/// Goes through all frames and logs what is in them. The buffers are lent to every call, and made once.
pub fn go_through(recording: &[u8], log: &mut impl Write) -> Result<Figures, Box<dyn Error>> {
    let (mut table, mut out) = (vec![0; RECORD * LONGEST], vec![0; LONGEST]);
    let mut figures = Figures::default();
    let mut left = recording;
    while !left.is_empty() {
        let at = recording.len() - left.len();
        // A call takes at most so many bytes, and no frame is longer. In edition 1 a bundle would take the next frame as an element.
        let window = &left[..left.len().min(LONGEST)];
        let decoded = decode_tcp(Edition::Standard, window, &mut table, DEEPEST);
        let packet = match decoded.map_err(|refusal| format!("the frame at {at}: {refusal}"))? {
            Decoded::Packet(packet) => packet,
            Decoded::Waiting => return Err(format!("the frame at {at} is cut off").into()),
        };
        write!(log, "{at}:")?;
        for record in packet.records() {
            match record.value() {
                Value::Message(address) => write!(log, " {address}")?,
                Value::Bundle(time) => write!(log, " #bundle {}.{}", time.seconds, time.fractional)?,
                value => write!(log, " {value:?}")?,
            }
        }
        writeln!(log)?;
        figures.packets += 1;
        figures.records += packet.count();
        let (frame, later) = left.split_at(window.len() - packet.left());
        if encode_tcp(Edition::Standard, packet.table(), &mut out)? == frame {
            figures.same += 1;
        }
        left = later;
    }
    Ok(figures)
}
