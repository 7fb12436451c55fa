//! Compiles the shims of liblo and oscpack where their headers are installed, and says so by `cfg(liblo)` and `cfg(oscpack)`.

use std::path::PathBuf;
use std::process::{Command, Stdio};

/// A library to measure against: its name, the shim's compiler and source, and what the shim links with.
struct Peer {
    name: &'static str,
    compiler: &'static str,
    shim: &'static str,
    links: &'static [&'static str],
}

const PEERS: [Peer; 2] = [
    Peer { name: "liblo", compiler: "cc", shim: "peers/lo.c", links: &["lo"] },
    Peer { name: "oscpack", compiler: "g++", shim: "peers/oscpack.cpp", links: &["oscpack", "stdc++"] },
];

fn main() {
    for watched in ["peers", "../../../include/osc.h"] {
        println!("cargo:rerun-if-changed={watched}");
    }
    for peer in PEERS {
        println!("cargo:rustc-check-cfg=cfg({})", peer.name);
        if builds(&peer) {
            println!("cargo:rustc-cfg={}", peer.name);
            println!("cargo:rustc-link-lib=static=peer_{}", peer.name);
            for library in peer.links {
                println!("cargo:rustc-link-lib={library}");
            }
        } else {
            println!("cargo:warning={} is not measured: {} does not compile here", peer.name, peer.shim);
        }
    }
}

/// Whether the shim compiles here and is in an archive.
fn builds(peer: &Peer) -> bool {
    let out = PathBuf::from(std::env::var_os("OUT_DIR").expect("cargo sets OUT_DIR"));
    println!("cargo:rustc-link-search=native={}", out.display());
    let object = out.join(format!("{}.o", peer.name));
    let archive = out.join(format!("libpeer_{}.a", peer.name));
    runs(Command::new(peer.compiler).args(["-O3", "-fPIC", "-c", peer.shim, "-o"]).arg(&object))
        && runs(Command::new("ar").arg("rcs").arg(archive).arg(object))
}

fn runs(command: &mut Command) -> bool {
    command.stderr(Stdio::null()).status().is_ok_and(|status| status.success())
}
