//! A folder for one run of a program.

use std::fs::{create_dir_all, remove_dir_all};
use std::io::Result;
use std::path::{Path, PathBuf};
use std::process;
use std::sync::atomic::{AtomicU64, Ordering::Relaxed};

/// A new folder below target/, which is removed with all that is in it.
pub struct Folder(PathBuf);

impl Folder {
    pub fn new() -> Result<Folder> {
        static NEXT: AtomicU64 = AtomicU64::new(0);
        let name = format!("{}-{}", process::id(), NEXT.fetch_add(1, Relaxed));
        let all = Path::new(concat!(env!("CARGO_MANIFEST_DIR"), "/../target/compare/programs"));
        let folder = Folder(all.join(name));
        create_dir_all(&folder.0)?;
        Ok(folder)
    }

    pub fn path(&self) -> &Path {
        &self.0
    }
}

impl Drop for Folder {
    fn drop(&mut self) {
        // What is left of a folder that cannot be removed does no harm.
        let _ = remove_dir_all(&self.0);
    }
}
