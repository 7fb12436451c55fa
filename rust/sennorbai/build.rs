//! Has the static library linked: the proved one, for x86-64. It is the one that is released with these sources, dist/libosc.a, and needs
//! no kit. Where the sources beside this crate were edited, the Rattle kit's `rt` proves and builds it anew. For another processor there
//! is none. There `OSC_NATIVE_LIB` may name one, by its whole path, that tests/native made; it is not a released one.

use std::path::{Path, PathBuf};
use std::process::{exit, Command};

#[path = "build/sha256.rs"]
mod sha256;

const NATIVE: &str = "OSC_NATIVE_LIB";

fn main() {
    println!("cargo::rerun-if-env-changed={NATIVE}");
    let arch = set_by_cargo("CARGO_CFG_TARGET_ARCH");
    let folder = match std::env::var_os(NATIVE) {
        Some(library) if arch != "x86_64" => native(Path::new(&library)),
        _ => proved(&arch),
    };
    println!("cargo::rustc-link-search=native={}", folder.display());
    println!("cargo::rustc-link-lib=static=osc");
}

/// Answers the folder of the proved library.
fn proved(arch: &str) -> PathBuf {
    if arch != "x86_64" {
        println!("cargo::warning=libosc.a is for x86-64 only: a link for {arch} will fail without {NATIVE}");
    }
    let here = PathBuf::from(set_by_cargo("CARGO_MANIFEST_DIR"));
    let release = here.join("dist");
    for watched in ["STATE", "SHA256SUMS", "libosc.a"] {
        println!("cargo::rerun-if-changed={}", release.join(watched).display());
    }
    match sources(&here) {
        Some(root) if !is_of(&release, &root) => built(&root),
        _ => whole(release),
    }
}

/// The project that this crate stands in, with the sources of the library. A packaged crate stands in none.
fn sources(here: &Path) -> Option<PathBuf> {
    let root = here.join("../..");
    (here.ends_with("rust/sennorbai") && root.join("crates/osc_c/src/lib.rt").is_file()).then_some(root)
}

/// Whether the release is of these sources: its STATE has the checksum that dist/sources prints.
fn is_of(release: &Path, root: &Path) -> bool {
    for watched in ["crates.txt", "dist/sources"] {
        println!("cargo::rerun-if-changed={}", root.join(watched).display());
    }
    // Beside these folders a crate has what the kit keeps, which is no source.
    for folder in std::fs::read_dir(root.join("crates")).into_iter().flatten().flatten() {
        for watched in ["src", "specs", "proofs"].map(|part| folder.path().join(part)).iter().filter(|part| part.is_dir()) {
            println!("cargo::rerun-if-changed={}", watched.display());
        }
    }
    let Ok(state) = std::fs::read_to_string(release.join("STATE")) else { return false };
    let sum = match Command::new(root.join("dist/sources")).output() {
        Ok(said) if said.status.success() => said.stdout,
        _ => stop("dist/sources, which prints the checksum of the sources, cannot be run here"),
    };
    state.lines().find_map(|line| line.strip_prefix("sources ")) == std::str::from_utf8(&sum).ok().map(str::trim)
}

/// Answers the release's folder, where its library is the one that was released.
fn whole(release: PathBuf) -> PathBuf {
    let read = |name| match std::fs::read(release.join(name)) {
        Ok(bytes) => bytes,
        Err(error) => stop(&format!("{}: {error}. {RESTORE}", release.join(name).display())),
    };
    let row = format!("{}  libosc.a", sha256::sha256(&read("libosc.a")));
    if !read("SHA256SUMS").split(|byte| *byte == b'\n').any(|line| line == row.as_bytes()) {
        let library = release.join("libosc.a");
        stop(&format!("{} is damaged: SHA256SUMS has another checksum. {RESTORE}", library.display()));
    }
    release
}

const RESTORE: &str =
    "Restore the folder dist of this crate, in the project by `git checkout rust/sennorbai/dist`, or unpack the crate again.";

/// Proves and builds the library of sources that were edited, and answers the folder of a copy. The kit names it after its crate, osc_c.
fn built(root: &Path) -> PathBuf {
    let why = "these sources are not those of dist/x86_64";
    let exports = root.join("crates/osc_c");
    match Command::new("rt").args(["lib", "--cpu=x86-64"]).current_dir(&exports).status() {
        Ok(status) if status.success() => {
            println!("cargo::warning={why}: libosc.a was proved and built anew by `rt lib` in crates/osc_c");
            copied(&exports.join("out/libosc_c.a"), "the library of crates/osc_c")
        }
        Ok(status) => stop(&format!("{why}, and `rt lib` in crates/osc_c ended with {status}: see what it says")),
        Err(error) => stop(&format!(
            "{why}, and `rt lib` in crates/osc_c, which proves and builds libosc.a anew, cannot be run: {error}. Undo the edit, or install \
             the Rattle kit."
        )),
    }
}

/// Answers the folder of a copy of the library that is named.
fn native(library: &Path) -> PathBuf {
    println!("cargo::rerun-if-changed={}", library.display());
    println!("cargo::warning=linked with {}, which is not the released library", library.display());
    copied(library, NATIVE)
}

/// Copies a library to the folder of this build, as libosc.a, and answers that folder.
fn copied(library: &Path, what: &str) -> PathBuf {
    let folder = PathBuf::from(set_by_cargo("OUT_DIR"));
    if let Err(error) = std::fs::copy(library, folder.join("libosc.a")) {
        stop(&format!("{what}, {}: {error}", library.display()));
    }
    folder
}

/// A variable that cargo sets for every build script.
fn set_by_cargo(name: &str) -> String {
    std::env::var(name).unwrap_or_else(|error| stop(&format!("{name}: {error}")))
}

/// Ends the build, and says why.
fn stop(words: &str) -> ! {
    println!("cargo::error={words}");
    exit(1)
}
