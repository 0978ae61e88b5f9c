//! A folder of its own for the networks that tools are given, gone when it is dropped.

use std::env::temp_dir;
use std::fs;
use std::path::{Path, PathBuf};
use std::process;

pub struct Scratch {
    folder: PathBuf,
}

impl Scratch {
    pub fn new() -> Result<Scratch, String> {
        Scratch::named("networks")
    }

    /// One of several of this process. A name has no spaces in scripts, so they become lines.
    pub fn named(name: &str) -> Result<Scratch, String> {
        let name = name.replace(' ', "-");
        let folder = temp_dir().join(format!("ploverdrift-measure-{}-{name}", process::id()));
        fs::create_dir_all(&folder).map_err(|error| format!("{}: {error}", folder.display()))?;
        Ok(Scratch { folder })
    }

    pub fn gates(&self) -> PathBuf {
        self.folder.join("gates.blif")
    }

    pub fn luts(&self) -> PathBuf {
        self.folder.join("luts.blif")
    }

    pub fn write(&self, path: &Path, text: &str) -> Result<(), String> {
        fs::write(path, text).map_err(|error| format!("{}: {error}", path.display()))
    }
}

impl Drop for Scratch {
    fn drop(&mut self) {
        // A folder that stays behind harms nothing.
        let _ = fs::remove_dir_all(&self.folder);
    }
}
