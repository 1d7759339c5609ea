//! The programs `list` and `diff`.

use std::fs;
use std::io::{Error, ErrorKind, Write};
use std::path::PathBuf;
use std::process::{self, Command, Stdio};
use std::{env, thread};

/// Both programs, and a folder of this process for the files that are named to `diff`.
pub struct Programs {
    list: PathBuf,
    diff: PathBuf,
    folder: PathBuf,
}

impl Programs {
    pub fn new(list: PathBuf, diff: PathBuf) -> Result<Programs, Error> {
        let folder = env::temp_dir().join(format!("differ-{}", process::id()));
        fs::create_dir_all(&folder)?;
        Ok(Programs { list, diff, folder })
    }

    pub fn folder(&self) -> PathBuf {
        self.folder.clone()
    }

    /// Writes a file into the folder.
    pub fn file(&self, name: &str, bytes: &[u8]) -> Result<PathBuf, Error> {
        let path = self.folder.join(name);
        fs::write(&path, bytes)?;
        Ok(path)
    }

    /// What `diff` writes for these arguments. It ends well whatever they are.
    pub fn diff(&self, arguments: &[PathBuf]) -> Result<String, Error> {
        let mut command = Command::new(&self.diff);
        let output = command.args(arguments).stdin(Stdio::null()).output()?;
        let text = String::from_utf8_lossy(&output.stdout).into_owned();
        match output.status.code() {
            Some(0) => Ok(text),
            _ => Ok(format!("{text}ended: {}", output.status)),
        }
    }

    /// What `list` writes for this input.
    pub fn list(&self, input: &[u8]) -> Result<String, Error> {
        list(&self.list, input)
    }
}

impl Drop for Programs {
    fn drop(&mut self) {
        // What is left behind in a folder for temporary files does no harm.
        let _ = fs::remove_dir_all(&self.folder);
    }
}

fn list(program: &PathBuf, input: &[u8]) -> Result<String, Error> {
    let mut child = Command::new(program)
        .stdin(Stdio::piped())
        .stdout(Stdio::piped())
        .spawn()?;
    let mut stdin = child.stdin.take().expect("a pipe");
    let (output, written) = thread::scope(|scope| {
        // Dropping the pipe at the end of the thread ends the input.
        let writer = scope.spawn(move || stdin.write_all(input));
        (child.wait_with_output(), writer.join().expect("no panic"))
    });
    match written {
        // Input that is too long need not be read to its end.
        Err(error) if error.kind() != ErrorKind::BrokenPipe => return Err(error),
        _ => {}
    }
    let output = output?;
    let text = String::from_utf8_lossy(&output.stdout).into_owned();
    match output.status.code() {
        Some(_) => Ok(text),
        None => Ok(format!("{text}ended by a signal: {}", output.status)),
    }
}
