//! Where an answer goes. A file is written whole or not at all: under another name beside it first, which then becomes its own.

use crate::args::Output;
use crate::standard;
use crate::trouble::Trouble;
use std::fs::{self, File, Permissions};
use std::io::{self, ErrorKind, Write};
use std::path::{Path, PathBuf};

pub fn write(to: &Output, bytes: &[u8]) -> Result<(), Trouble> {
    let (name, written) = match to {
        Output::Standard => ("standard output".to_string(), standard::print(bytes)),
        Output::File(path) => (path.display().to_string(), to_file(path, bytes)),
    };
    written.map_err(|error| Trouble::Unwritten(name, error))
}

fn to_file(path: &Path, bytes: &[u8]) -> io::Result<()> {
    // opened, so that a file that must not be written is not replaced either
    let mut there = match File::options().write(true).open(path) {
        Err(error) if error.kind() == ErrorKind::NotFound => return fresh(path, None, bytes),
        opened => opened?,
    };
    let about = there.metadata()?;
    if !about.is_file() {
        return there.write_all(bytes); // a device, or a pipe: nothing that another file could stand for
    }
    // a symbolic link stays one: what is replaced is the file that it leads to
    fresh(&fs::canonicalize(path)?, Some(about.permissions()), bytes)
}

/// A new file of this name; one that was there goes only once the new one is whole.
fn fresh(path: &Path, permissions: Option<Permissions>, bytes: &[u8]) -> io::Result<()> {
    let (beside, file) = beside(path)?;
    let written = fill(file, permissions, bytes).and_then(|()| fs::rename(&beside, path));
    if written.is_err() {
        let _ = fs::remove_file(&beside);
    }
    written
}

fn fill(mut file: File, permissions: Option<Permissions>, bytes: &[u8]) -> io::Result<()> {
    if let Some(as_before) = permissions {
        file.set_permissions(as_before)?;
    }
    file.write_all(bytes)?;
    file.sync_all() // a full disk may say so only here
}

/// A file in the same folder under a name that no other has.
fn beside(path: &Path) -> io::Result<(PathBuf, File)> {
    let mut count = 0;
    loop {
        let beside = path.with_file_name(format!(".kerb-{}-{count}", std::process::id()));
        match File::create_new(&beside) {
            Err(error) if error.kind() == ErrorKind::AlreadyExists => count += 1,
            created => return created.map(|file| (beside, file)),
        }
    }
}
