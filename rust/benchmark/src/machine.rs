//! Where and when it was measured.

use std::fs;
use std::process::Command;
use std::thread;

const UNKNOWN: &str = "unknown";

/// The processor's model.
pub fn model() -> String {
    let text = fs::read_to_string("/proc/cpuinfo").unwrap_or_default();
    let line = text.lines().find(|line| line.starts_with("model name"));
    let model = line.and_then(|line| line.split_once(':'));
    model.map_or(UNKNOWN, |(_, model)| model.trim()).to_string()
}

pub fn cores() -> String {
    thread::available_parallelism().map_or(UNKNOWN.to_string(), |cores| cores.to_string())
}

/// How many programs wanted to run, over the last minute.
pub fn load() -> String {
    let text = fs::read_to_string("/proc/loadavg").unwrap_or_default();
    text.split(' ')
        .next()
        .filter(|load| !load.is_empty())
        .unwrap_or(UNKNOWN)
        .to_string()
}

/// The day, as YYYY-MM-DD.
pub fn day() -> String {
    let said = Command::new("date").args(["-u", "+%Y-%m-%d"]).output();
    said.map_or(UNKNOWN.to_string(), |said| {
        String::from_utf8_lossy(&said.stdout).trim().to_string()
    })
}
