//! Files that are read to a limit, and files that are replaced whole or not at all.

use std::fs::{self, File, OpenOptions};
use std::io::{self, ErrorKind, Read, Write};
use std::path::{Path, PathBuf};
use std::process;

use crate::failure::Failure;

/// A reason in words where the system has none that a user would understand.
fn words(error: &io::Error) -> String {
    match error.kind() {
        ErrorKind::NotFound => "there is no such file or folder".into(),
        ErrorKind::IsADirectory => "this is a folder and no file".into(),
        ErrorKind::PermissionDenied => "no permission for it".into(),
        ErrorKind::InvalidFilename => "the name is too long".into(),
        _ => error.to_string(),
    }
}

fn failure(path: &Path, error: &io::Error) -> Failure {
    Failure::file(path.display(), words(error))
}

/// One byte more than a job may have, so that the package sees a longer one.
const JOB_READ: u64 = 65_536 + 1;

/// A job as far as the package has to see it.
pub fn job(path: &str) -> Result<Vec<u8>, Failure> {
    read(path, JOB_READ)
}

/// At most `limit` bytes of a file.
pub fn read(path: &str, limit: u64) -> Result<Vec<u8>, Failure> {
    read_if_there(path, limit)?
        .ok_or_else(|| Failure::file(path, words(&ErrorKind::NotFound.into())))
}

/// The same, or nothing where there is no such file.
pub fn read_if_there(path: &str, limit: u64) -> Result<Option<Vec<u8>>, Failure> {
    let mut bytes = Vec::new();
    match File::open(path).and_then(|file| file.take(limit).read_to_end(&mut bytes)) {
        Ok(_) => Ok(Some(bytes)),
        Err(error) if error.kind() == ErrorKind::NotFound => Ok(None),
        Err(error) => Err(failure(Path::new(path), &error)),
    }
}

/// The place of a file, which need not be there: links are followed.
fn place(path: &str) -> Option<PathBuf> {
    let given = Path::new(path);
    let folder = given.parent().filter(|folder| *folder != Path::new(""));
    let absent = || {
        Some(
            fs::canonicalize(folder.unwrap_or(Path::new(".")))
                .ok()?
                .join(given.file_name()?),
        )
    };
    fs::canonicalize(given).ok().or_else(absent)
}

/// Whether two names are of one file.
pub fn same(a: &str, b: &str) -> bool {
    place(a).is_some_and(|a| Some(a) == place(b))
}

/// The new content of a file, written beside it and not yet in its place. It is removed where it never gets there.
pub struct Replacement {
    target: PathBuf,
    beside: PathBuf,
}

impl Replacement {
    /// Writes the content beside the file. All that is likely to fail, as a full disk, fails here.
    pub fn prepare(path: &str, content: &[u8]) -> Result<Replacement, Failure> {
        // a link stays, and the file that it leads to is replaced
        let target = place(path).unwrap_or_else(|| PathBuf::from(path));
        let beside = beside(&target);
        let replacement = Replacement { target, beside };
        replacement
            .write(content)
            .map_err(|error| failure(Path::new(path), &error))?;
        Ok(replacement)
    }

    fn write(&self, content: &[u8]) -> io::Result<()> {
        let permissions = replaceable(&self.target)?;
        let mut file = OpenOptions::new()
            .write(true)
            .create_new(true)
            .open(&self.beside)?;
        if let Some(permissions) = permissions {
            file.set_permissions(permissions)?;
        }
        file.write_all(content)?;
        file.sync_all()
    }

    /// Puts the content in the file's place, in one step.
    pub fn commit(self) -> Result<(), Failure> {
        fs::rename(&self.beside, &self.target).map_err(|error| failure(&self.target, &error))
    }
}

impl Drop for Replacement {
    fn drop(&mut self) {
        // after a commit it is no longer there
        let _ = fs::remove_file(&self.beside);
    }
}

fn beside(target: &Path) -> PathBuf {
    let name = target.file_name().unwrap_or_default().to_string_lossy();
    target.with_file_name(format!(".{name}.{}", process::id()))
}

/// The permissions of the file that is there, if one is. One that may not be written, or a device, is not replaced.
fn replaceable(target: &Path) -> io::Result<Option<fs::Permissions>> {
    let there = match fs::metadata(target) {
        Err(error) if error.kind() == ErrorKind::NotFound => return Ok(None),
        there => there?,
    };
    if there.is_dir() {
        return Err(ErrorKind::IsADirectory.into());
    }
    if !there.is_file() {
        return Err(io::Error::other(
            "no ordinary file, so it cannot be replaced",
        ));
    }
    if there.permissions().readonly() {
        return Err(ErrorKind::PermissionDenied.into());
    }
    Ok(Some(there.permissions()))
}
