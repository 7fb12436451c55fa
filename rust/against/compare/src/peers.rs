//! Packets written by independent encoders: Debian's liblo and oscpack, each behind a small program in peers/.

use crate::inputs;
use crate::met::{Rule, Seen};
use crate::random::Random;
use crate::streams::Writers;
use crate::table::word;
use std::io::Write;
use std::path::Path;
use std::process::{Command, Stdio};

/// How many packets each library writes.
const PACKETS: usize = 5000;

/// A library: its name, the program that writes its packets, and what that is compiled with.
struct Library {
    name: &'static str,
    compiler: &'static str,
    language: &'static str,
    source: &'static str,
    header: &'static str,
    link: &'static str,
    /// What has to hold of the library's numbers on this processor, as a declaration.
    fits: &'static str,
}

const LIBLO: Library =
    Library { name: "liblo", compiler: "cc", language: "c", source: "liblo.c", header: "lo/lo.h", link: "-llo", fits: "" };

/// Where oscpack's own int32 is wider, as on aarch64, it writes no OSC.
const OSCPACK: Library = Library {
    name: "oscpack",
    compiler: "c++",
    language: "c++",
    source: "oscpack.cpp",
    header: "oscpack/osc/OscOutboundPacketStream.h",
    link: "-loscpack",
    fits: "static_assert(sizeof(osc::int32) == 4);",
};

/// The packets of each library; none where it is left out.
pub struct Peers {
    pub liblo: Vec<Vec<u8>>,
    pub oscpack: Vec<Vec<u8>>,
}

impl Peers {
    pub fn none() -> Peers {
        Peers { liblo: Vec::new(), oscpack: Vec::new() }
    }

    /// Builds the programs and reads what they write; says in a line each what there is.
    pub fn load(seed: u64) -> Result<Peers, String> {
        let (liblo, oscpack) = (packets(&LIBLO, seed)?, packets(&OSCPACK, seed)?);
        Ok(Peers { liblo, oscpack })
    }

    pub fn any(&self) -> bool {
        !self.liblo.is_empty() || !self.oscpack.is_empty()
    }

    /// The libraries that are left out.
    pub fn missing(&self) -> Vec<&'static str> {
        let all = [("liblo", self.liblo.is_empty()), ("oscpack", self.oscpack.is_empty())];
        all.into_iter().filter(|(_, missing)| *missing).map(|(name, _)| name).collect()
    }

    /// One packet, as it was written or damaged, which is noted.
    pub fn one(&self, r: &mut Random, seen: &mut Seen) -> Vec<u8> {
        let at = r.below(self.liblo.len() + self.oscpack.len());
        let whole = r.one_in(2);
        let (packet, rules) = match self.liblo.get(at) {
            Some(packet) => (packet, [Rule::LibloDamaged, Rule::LibloWhole]),
            None => (&self.oscpack[at - self.liblo.len()], [Rule::OscpackDamaged, Rule::OscpackWhole]),
        };
        seen.note(rules[whole as usize]);
        let mut bytes = packet.clone();
        if !whole {
            inputs::damage(r, &mut bytes);
        }
        bytes
    }

    /// One packet as it was written; by whom is noted.
    pub fn written(&self, r: &mut Random, by: &mut Writers) -> Vec<u8> {
        let at = r.below(self.liblo.len() + self.oscpack.len());
        match self.liblo.get(at) {
            Some(packet) => {
                by.liblo = true;
                packet.clone()
            }
            None => {
                by.oscpack = true;
                self.oscpack[at - self.liblo.len()].clone()
            }
        }
    }
}

/// Builds one program and reads its packets; a library that is not installed, or does not fit the processor, has none.
fn packets(library: &Library, seed: u64) -> Result<Vec<Vec<u8>>, String> {
    let name = library.name;
    if !compiles(library, "") {
        println!("{name}: left out, it is not installed");
        return Ok(Vec::new());
    }
    if !compiles(library, library.fits) {
        println!("{name}: left out, its numbers do not fit this processor");
        return Ok(Vec::new());
    }
    let folder = Path::new(env!("CARGO_MANIFEST_DIR")).join("peers");
    let target = Path::new(env!("CARGO_MANIFEST_DIR")).join("../target/peers");
    std::fs::create_dir_all(&target).map_err(|error| format!("{}: {error}", target.display()))?;
    let program = target.join(name);
    let mut compile = Command::new(library.compiler);
    compile.args(["-O2", "-Wall", "-Wextra", "-o"]).arg(&program).arg(folder.join(library.source)).arg(library.link);
    output(&mut compile)?;
    let bytes = output(Command::new(&program).args([seed.to_string(), PACKETS.to_string()]))?;
    let packets = split(&bytes);
    println!("{name}: {} packets, {} bytes", packets.len(), bytes.len() - 4 * packets.len());
    Ok(packets)
}

/// Whether a declaration compiles after the library's header.
fn compiles(library: &Library, declaration: &str) -> bool {
    let mut compile = Command::new(library.compiler);
    compile.args(["-fsyntax-only", "-include", library.header, "-x", library.language, "-"]);
    compile.stdin(Stdio::piped()).stdout(Stdio::null()).stderr(Stdio::null());
    compile.spawn().is_ok_and(|mut child| {
        // Its standard input ends where this is dropped.
        let given = child.stdin.take().is_some_and(|mut to| to.write_all(declaration.as_bytes()).is_ok());
        child.wait().is_ok_and(|status| given && status.success())
    })
}

/// What a command writes, or why there is nothing.
fn output(command: &mut Command) -> Result<Vec<u8>, String> {
    let told = command.output().map_err(|error| format!("{command:?}: {error}"))?;
    if told.status.success() {
        return Ok(told.stdout);
    }
    Err(format!("{command:?}: {}: {}", told.status, String::from_utf8_lossy(&told.stderr)))
}

/// The packets, each of which stands after its length.
fn split(bytes: &[u8]) -> Vec<Vec<u8>> {
    let (mut all, mut at) = (Vec::new(), 0);
    while at + 4 <= bytes.len() {
        let size = word(bytes, at) as usize;
        all.push(bytes[at + 4..at + 4 + size].to_vec());
        at += 4 + size;
    }
    all
}
