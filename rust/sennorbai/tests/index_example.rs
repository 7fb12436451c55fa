//! The example program over recordings and indexes in files.
#![cfg(feature = "std")]

#[path = "../examples/index.rs"]
#[allow(dead_code)] // Its `main` is not called here.
mod index;

use index::run;
use std::fs;
use std::path::PathBuf;

/// A folder of its own, which is gone at the end.
struct Room(PathBuf);

impl Room {
    fn new(name: &str) -> Room {
        let folder = std::env::temp_dir().join(format!("sennorbai_{name}_{}", std::process::id()));
        fs::create_dir_all(&folder).unwrap();
        Room(folder)
    }

    /// The name of a file in it.
    fn file(&self, name: &str) -> String {
        self.0.join(name).to_str().unwrap().to_string()
    }
}

impl Drop for Room {
    fn drop(&mut self) {
        fs::remove_dir_all(&self.0).unwrap();
    }
}

const RECORDING: &[u8] =
    b"\0\0\0\x08/a\0\0,\0\0\0\0\0\0\x1C#bundle\0\0\0\0\0\0\0\0\x01\0\0\0\x08/b\0\0,T\0\0\0\0\0\x08/c\0\0,\0\0\0";

#[test]
fn writes_checks_and_looks_up() {
    let room = Room::new("looks_up");
    let (recording, index) = (room.file("recording"), room.file("index"));
    fs::write(&recording, RECORDING).unwrap();
    assert_eq!(run(&["write", &recording, &index]).unwrap(), "3 cues, 56 bytes");
    assert_eq!(fs::read(&index).unwrap().len(), 48);
    assert_eq!(run(&["check", &recording, &index]).unwrap(), "3 cues, 56 bytes");
    assert_eq!(run(&["cue", &recording, &index, "1"]).unwrap(), "12: 3 records: /b");
    assert_eq!(run(&["cue", &recording, &index, "2"]).unwrap(), "44: 1 records: /c");
    assert_eq!(run(&["cue", &recording, &index, "3"]).unwrap_err().to_string(), "there is no such cue");
}

#[test]
fn says_where_it_goes_no_further() {
    let room = Room::new("no_further");
    let (recording, index) = (room.file("recording"), room.file("index"));
    fs::write(&recording, &RECORDING[..50]).unwrap();
    let told = "2 cues up to the frame at 44, which is cut off";
    assert_eq!(run(&["write", &recording, &index]).unwrap(), told);
    assert_eq!(run(&["check", &recording, &index]).unwrap(), told);
    // The same index is that of a recording with another damage there, and not of the whole one.
    fs::write(&recording, [&RECORDING[..44], b"\0\0\0\0"].concat()).unwrap();
    let told = "2 cues up to the frame at byte 44: 2: a packet of no bytes";
    assert_eq!(run(&["check", &recording, &index]).unwrap(), told);
    fs::write(&recording, RECORDING).unwrap();
    let error = run(&["cue", &recording, &index, "0"]).unwrap_err();
    assert_eq!(error.to_string(), "25: index differs, record 2");
}

#[test]
fn other_words_and_files_are_refused() {
    let room = Room::new("refused");
    assert!(run(&["write", &room.file("none"), &room.file("index")]).is_err());
    for words in [&[][..], &["write"], &["index", "a", "b"], &["cue", "a", "b"], &["cue", "a", "b", "x"]] {
        assert!(run(words).is_err(), "{words:?}");
    }
}
