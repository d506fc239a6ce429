//! sigrok's decoder `iec`, a program of its own: it reads a dump that bin/vcd made, outside the time that is measured.

use crate::folder::Folder;
use crate::recordings::{step, Recording, BOTH};
use crate::same;
use parties::file_of;
use std::fs::{self, File};
use std::path::{Path, PathBuf};
use std::process::Command;
use std::time::Instant;

pub struct Sigrok {
    pub version: String,
    one_tick: PathBuf,
    folder: Folder,
}

/// What one run gave.
pub struct Decoded {
    pub seconds: f64,
    bytes: Vec<u8>,
}

impl Sigrok {
    /// The program, if it is here.
    pub fn find() -> Result<Option<Self>, String> {
        let Ok(said) = Command::new("sigrok-cli").arg("--version").output() else {
            return Ok(None);
        };
        let said = String::from_utf8_lossy(&said.stdout).into_owned();
        let version = said.lines().next().unwrap_or("sigrok-cli").to_string();
        let folder = Folder::make()?;
        let one_tick = dump_file(&folder, "one-tick", &file_of(&[step(1, BOTH)]))?;
        Ok(Some(Sigrok {
            version,
            one_tick,
            folder,
        }))
    }

    /// Seconds for a recording of one tick.
    pub fn start_up(&self) -> Result<f64, String> {
        Ok(decode(&self.one_tick)?.seconds)
    }

    /// The recording's dump, of which the decoder must read what the judges read, complemented.
    pub fn dump(&self, recording: &Recording) -> Result<PathBuf, String> {
        let dump = dump_file(&self.folder, "recording", &recording.file)?;
        let shown: Vec<u8> = decode(&dump)?.bytes.iter().map(|&byte| !byte).collect();
        if shown != same::bytes_of(recording) {
            return Err(format!("{}: sigrok reads other bytes", recording.name));
        }
        Ok(dump)
    }
}

/// One run of the decoder over a dump.
pub fn decode(dump: &Path) -> Result<Decoded, String> {
    let mut command = Command::new("sigrok-cli");
    command.args([
        "-I",
        "vcd",
        "-P",
        "iec:data=DATA:clk=CLK:atn=ATN:srq=SRQ",
        "-A",
        "iec=items",
        "-i",
    ]);
    let began = Instant::now();
    let output = command
        .arg(dump)
        .output()
        .map_err(|error| format!("sigrok-cli: {error}"))?;
    let seconds = began.elapsed().as_secs_f64();
    if !output.status.success() {
        return Err(format!("sigrok-cli ended with {}", output.status));
    }
    let bytes = String::from_utf8_lossy(&output.stdout)
        .lines()
        .map(|line| {
            u8::from_str_radix(line.trim_start_matches("iec-1: "), 16)
                .map_err(|_| format!("sigrok-cli said: {line}"))
        })
        .collect::<Result<Vec<u8>, String>>()?;
    Ok(Decoded { seconds, bytes })
}

/// Has bin/vcd dump a recording, in files of that name.
fn dump_file(folder: &Folder, name: &str, file: &[u8]) -> Result<PathBuf, String> {
    let recording = folder.0.join(name).with_extension("rec");
    let dump = recording.with_extension("vcd");
    let told = |error: std::io::Error| format!("a dump could not be made: {error}");
    fs::write(&recording, file).map_err(told)?;
    let vcd = Path::new(env!("CARGO_MANIFEST_DIR")).join("../../bin/vcd");
    let status = Command::new(vcd)
        .arg(&recording)
        .stdout(File::create(&dump).map_err(told)?)
        .status()
        .map_err(told)?;
    if status.success() {
        Ok(dump)
    } else {
        Err(format!("bin/vcd ended with {status}"))
    }
}
