//! A file that is there whole or not at all.

use std::ffi::OsStr;
use std::fs::{self, File, OpenOptions};
use std::io::{self, BufWriter, ErrorKind, Write};
use std::path::{Path, PathBuf};
use std::process;

use crate::status::Trouble;
use crate::text::shown_path;

/// Where a new file goes, as an option says. It is looked at first, since the rest may take long. The new file takes the place of the old one by a rename, so
/// a device, a pipe or a link there would be lost: force is for files.
pub fn target<'a>(option: &str, path: &'a OsStr, force: bool) -> Result<&'a Path, Trouble> {
    if path == "-" || path.is_empty() {
        let why = format!("{option} takes the name of a file");
        return Err(Trouble::usage(why));
    }
    let path = Path::new(path);
    match fs::symlink_metadata(path) {
        Ok(about) if !about.is_file() => {
            let why =
                "it is there already and is no regular file, and only such a one can be replaced";
            Err(Trouble::failed(&shown_path(path.as_os_str()), why))
        }
        Ok(_) if !force => Err(exists(path)),
        _ => Ok(path),
    }
}

fn exists(path: &Path) -> Trouble {
    let why = "it is there already, and only --force replaces it";
    Trouble::failed(&shown_path(path.as_os_str()), why)
}

/// A file that is written beside its target and takes its place at the end. Dropped before, it is removed.
pub struct NewFile {
    file: BufWriter<File>,
    beside: PathBuf,
    target: PathBuf,
}

impl NewFile {
    pub fn create(target: &Path) -> Result<NewFile, Trouble> {
        let folder = match target.parent() {
            Some(folder) if !folder.as_os_str().is_empty() => folder,
            _ => Path::new("."),
        };
        let (file, beside) = create_beside(folder).map_err(|error| trouble(target, &error))?;
        Ok(NewFile {
            file: BufWriter::with_capacity(1 << 16, file),
            beside,
            target: target.to_path_buf(),
        })
    }

    pub fn write(&mut self, bytes: &[u8]) -> Result<(), Trouble> {
        let done = self.file.write_all(bytes);
        done.map_err(|error| trouble(&self.target, &error))
    }

    /// Puts the file in its place. What stands there is replaced only by force.
    pub fn finish(mut self, force: bool) -> Result<(), Trouble> {
        self.place(force).map_err(|error| match error.kind() {
            ErrorKind::AlreadyExists => exists(&self.target),
            _ => trouble(&self.target, &error),
        })
    }

    fn place(&mut self, force: bool) -> io::Result<()> {
        self.file.flush()?;
        self.file.get_ref().sync_all()?;
        if force {
            return fs::rename(&self.beside, &self.target);
        }
        // A link fails where something has come to stand in the meantime, a rename would replace it.
        match fs::hard_link(&self.beside, &self.target) {
            Err(error) if error.kind() != ErrorKind::AlreadyExists => self.rename(),
            done => done,
        }
    }

    /// For file systems without links.
    fn rename(&self) -> io::Result<()> {
        match fs::symlink_metadata(&self.target) {
            Ok(_) => Err(ErrorKind::AlreadyExists.into()),
            Err(_) => fs::rename(&self.beside, &self.target),
        }
    }
}

impl Drop for NewFile {
    fn drop(&mut self) {
        let _ = fs::remove_file(&self.beside);
    }
}

fn trouble(target: &Path, error: &io::Error) -> Trouble {
    Trouble::io(&shown_path(target.as_os_str()), error)
}

/// A new file with a name that no other has.
fn create_beside(folder: &Path) -> io::Result<(File, PathBuf)> {
    let mut n = 0;
    loop {
        let path = folder.join(format!(".hods-{}-{n}.new", process::id()));
        match OpenOptions::new().write(true).create_new(true).open(&path) {
            Err(error) if error.kind() == ErrorKind::AlreadyExists && n < 100 => n += 1,
            done => return Ok((done?, path)),
        }
    }
}
