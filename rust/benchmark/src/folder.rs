//! A folder for files that are needed for a while.

use std::fs;
use std::path::PathBuf;
use std::process;

/// A folder that is gone with its owner.
pub struct Folder(pub PathBuf);

impl Folder {
    pub fn make() -> Result<Self, String> {
        let path = std::env::temp_dir().join(format!("benchmark-{}", process::id()));
        fs::create_dir(&path).map_err(|error| format!("{}: {error}", path.display()))?;
        Ok(Folder(path))
    }
}

impl Drop for Folder {
    fn drop(&mut self) {
        // what is left of it is in the system's own folder for such things
        let _ = fs::remove_dir_all(&self.0);
    }
}
