//! Writes the cue index of a recording, checks it, and jumps to a cue by its number. The recording is frames end to end in a file, each
//! a 4-byte length and a packet.
//!
//!     cargo run --example index -- write RECORDING INDEX
//!     cargo run --example index -- check RECORDING INDEX
//!     cargo run --example index -- cue RECORDING INDEX K

use sennorbai::index::{self, Stop, Written, MOST_IN_A_CUE};
use sennorbai::{decode_tcp, Decoded, Edition, Value, DEEPEST, RECORD};
use std::error::Error;
use std::fs::File;
use std::io::{Read, Seek, SeekFrom};

fn main() -> Result<(), Box<dyn Error>> {
    let words: Vec<String> = std::env::args().skip(1).collect();
    println!("{}", run(&words.iter().map(String::as_str).collect::<Vec<_>>())?);
    Ok(())
}

/// Does what the words ask for, and answers a line.
pub fn run(words: &[&str]) -> Result<String, Box<dyn Error>> {
    match *words {
        ["write", recording, index] => Ok(told(index::write(File::open(recording)?, File::create(index)?)?)),
        ["check", recording, index] => Ok(told(index::check(File::open(recording)?, File::open(index)?)?.written())),
        ["cue", recording, index, k] => cue(recording, index, k.parse()?),
        _ => Err("write RECORDING INDEX, check RECORDING INDEX, or cue RECORDING INDEX K".into()),
    }
}

/// How far an index goes, in words.
fn told(written: Written) -> String {
    let Written { records, end, stop } = written;
    match stop {
        Stop::Whole => format!("{records} cues, {end} bytes"),
        Stop::Waiting => format!("{records} cues up to the frame at {end}, which is cut off"),
        Stop::Refused(ended) => format!("{records} cues up to {ended}"),
        other => format!("{records} cues up to the frame at {end}: {other:?}"),
    }
}

/// The messages of a cue. Only an index that was checked is asked for it, and so it is where the index says, and can be read.
fn cue(recording: &str, index: &str, k: u64) -> Result<String, Box<dyn Error>> {
    let mut checked = index::check(File::open(recording)?, File::open(index)?)?;
    let cue = checked.cue(k)?.ok_or("there is no such cue")?;
    let (mut frame, mut table) = (vec![0; 4 + cue.length as usize], vec![0; RECORD * MOST_IN_A_CUE]);
    let mut recording = File::open(recording)?;
    recording.seek(SeekFrom::Start(cue.offset))?;
    recording.read_exact(&mut frame)?;
    let Decoded::Packet(packet) = decode_tcp(Edition::Standard, &frame, &mut table, DEEPEST)? else {
        return Err("the recording was changed after the check".into());
    };
    let messages = packet.records().filter_map(|record| match record.value() {
        Value::Message(address) => Some(address),
        _ => None,
    });
    Ok(format!("{}: {} records: {}", cue.offset, cue.records, messages.collect::<Vec<_>>().join(" ")))
}
