//! What figures come from: the machine, the day and the version.

use sennorbai::rosc_compat::OscTime;
use std::time::SystemTime;

const HEADER: &str = include_str!("../../../../include/osc.h");

/// The processor and its architecture, the day, and the versions of both sides with how they are built.
pub fn origin() -> String {
    let (arch, day, version) = (std::env::consts::ARCH, day(), version());
    format!("{}, {arch}; {day}; Sennorbai {version}; rosc 0.11.4, LTO and one codegen unit", processor())
}

/// The processor by the name that Linux has for it.
fn processor() -> String {
    let all = std::fs::read_to_string("/proc/cpuinfo").unwrap_or_default();
    let name = all.lines().find_map(|line| line.strip_prefix("model name")?.trim_start().strip_prefix(':'));
    name.map_or("a processor without a name".to_string(), |name| name.trim().to_string())
}

/// The day by the clock of the machine, as 2026-01-31.
fn day() -> String {
    let now = OscTime::try_from(SystemTime::now()).map(|now| now.to_string());
    now.map_or("on an unknown day".to_string(), |now| now[..10].to_string())
}

/// The version that the library's header has.
fn version() -> &'static str {
    let line = HEADER.lines().find_map(|line| line.strip_prefix("#define SENNORBAI_VERSION "));
    line.unwrap_or("of an unknown version").trim_matches('"')
}
