//! The `jis.tab` of a program's folder.

use std::fs::{self, Permissions, create_dir, set_permissions};
use std::io::Result;
use std::os::unix::fs::{PermissionsExt, symlink};
use std::path::Path;

use crate::cells;

/// What lies in the folder as `jis.tab`.
#[derive(Debug, Clone)]
pub enum Table {
    /// The Rust's cell table.
    Rusts,
    /// Nothing.
    Absent,
    /// A link to a file that is absent.
    Dangling,
    /// A file of these bytes.
    Bytes(Vec<u8>),
    /// A folder.
    Folder,
    /// A file that the user may not read.
    Unreadable,
}

impl Table {
    /// A file of these numbers.
    pub fn of(cells: &[u16]) -> Table {
        Table::Bytes(bytes(cells))
    }

    /// Puts it into a folder.
    pub fn put(&self, folder: &Path) -> Result<()> {
        let path = folder.join("jis.tab");
        match self {
            Table::Absent => Ok(()),
            Table::Rusts => fs::write(path, bytes(cells::rusts())),
            Table::Bytes(bytes) => fs::write(path, bytes),
            Table::Dangling => symlink("nothing", path),
            Table::Folder => create_dir(path),
            Table::Unreadable => {
                fs::write(&path, bytes(cells::rusts()))?;
                set_permissions(path, Permissions::from_mode(0o000))
            }
        }
    }

    /// The cell table that a program has by it, as 01 says: "zeros if absent"; none, which question
    /// 1 refuses, where it "is not 17,672 bytes long".
    pub fn cells(&self) -> Vec<u16> {
        match self {
            Table::Rusts => cells::rusts().to_vec(),
            Table::Absent | Table::Dangling => cells::zeros().to_vec(),
            Table::Bytes(bytes) if bytes.len() == 17_672 => {
                bytes.chunks(2).map(|n| u16::from_be_bytes([n[0], n[1]])).collect()
            }
            Table::Bytes(_) | Table::Folder | Table::Unreadable => vec![],
        }
    }

    /// What a program says of it on standard error.
    pub fn said(&self) -> &'static str {
        match self {
            Table::Rusts | Table::Bytes(_) => "",
            Table::Absent | Table::Dangling => "jis.tab: absent, so every kanji is undefined\n",
            Table::Folder => "jis.tab: Is a directory\n",
            Table::Unreadable => "jis.tab: Permission denied\n",
        }
    }
}

fn bytes(cells: &[u16]) -> Vec<u8> {
    cells.iter().flat_map(|cell| cell.to_be_bytes()).collect()
}
