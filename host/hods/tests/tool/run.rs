//! Runs of the tool in folders of their own.

use std::fs;
use std::io::Write;
use std::path::{Path, PathBuf};
use std::process::{Child, Command, Output, Stdio};

/// Writes `book` from `list` and `content`.
pub const FROM_LIST: [&str; 7] = [
    "write",
    "-o",
    "book",
    "--list",
    "list",
    "--content",
    "content",
];

/// The command, standing in the folder with the samples.
pub fn command(args: &[&str]) -> Command {
    let mut command = Command::new(env!("CARGO_BIN_EXE_hods"));
    command.args(args).current_dir(samples());
    command
}

pub fn samples() -> PathBuf {
    Path::new(env!("CARGO_MANIFEST_DIR")).join("../../samples")
}

pub fn sample(name: &str) -> Vec<u8> {
    fs::read(samples().join(name)).unwrap()
}

/// The sample book with these bytes as its entries, too few of them for a quick word.
pub fn book_of(entries: &[&[u8]]) -> Vec<u8> {
    let (mut book, body) = (sample("sample.chm"), entries.concat());
    let chunk = &mut book[204..4300];
    let tail = 4096 - 20 - body.len() as u32;
    chunk[4..8].copy_from_slice(&tail.to_le_bytes());
    chunk[20..4094].fill(0);
    chunk[20..20 + body.len()].copy_from_slice(&body);
    chunk[4094..].copy_from_slice(&(entries.len() as u16).to_le_bytes());
    book
}

/// How a run ended.
#[derive(Debug)]
pub struct Ran {
    pub status: i32,
    pub bytes: Vec<u8>,
    pub err: String,
}

impl Ran {
    pub fn of(output: Output) -> Ran {
        Ran {
            status: output.status.code().unwrap_or(-1),
            bytes: output.stdout,
            err: String::from_utf8_lossy(&output.stderr).into_owned(),
        }
    }

    pub fn out(&self) -> &str {
        std::str::from_utf8(&self.bytes).unwrap()
    }

    /// Nothing went wrong; gives back what was printed.
    #[track_caller]
    pub fn good(&self) -> &str {
        assert_eq!((self.status, &self.err[..]), (0, ""));
        self.out()
    }

    /// It ended with this status, printed nothing, and its one message has all these words.
    #[track_caller]
    pub fn bad(&self, status: i32, words: &[&str]) {
        assert_eq!(self.status, status, "{self:?}");
        assert_eq!(self.out(), "");
        assert_eq!(self.err.lines().count(), 1, "{}", self.err);
        self.says(words);
    }

    #[track_caller]
    pub fn says(&self, words: &[&str]) {
        for line in self.err.lines() {
            assert!(line.starts_with("hods: "), "{line}");
        }
        for word in words {
            assert!(self.err.contains(word), "{word} not in {}", self.err);
        }
    }
}

pub fn hods(args: &[&str]) -> Ran {
    Ran::of(command(args).output().unwrap())
}

/// A run with bytes on its standard input.
pub fn fed(mut command: Command, input: &[u8]) -> Ran {
    let mut child = started(&mut command);
    let mut stdin = child.stdin.take().unwrap();
    // Where the tool does not read to the end, the rest has nowhere to go.
    let _ = stdin.write_all(input);
    drop(stdin);
    Ran::of(child.wait_with_output().unwrap())
}

pub fn started(command: &mut Command) -> Child {
    command
        .stdin(Stdio::piped())
        .stdout(Stdio::piped())
        .stderr(Stdio::piped())
        .spawn()
        .unwrap()
}

/// A folder for one test, removed behind it.
pub struct Folder(PathBuf);

impl Folder {
    pub fn new(label: &str) -> Folder {
        let path = Path::new(env!("CARGO_TARGET_TMPDIR")).join(label);
        let _ = fs::remove_dir_all(&path);
        fs::create_dir_all(&path).unwrap();
        Folder(path)
    }

    pub fn path(&self, name: &str) -> PathBuf {
        self.0.join(name)
    }

    /// Writes a file, and the folders that it stands in.
    pub fn put(&self, name: &str, bytes: &[u8]) {
        let path = self.path(name);
        fs::create_dir_all(path.parent().unwrap()).unwrap();
        fs::write(path, bytes).unwrap();
    }

    pub fn read(&self, name: &str) -> Vec<u8> {
        fs::read(self.path(name)).unwrap()
    }

    /// What stands in the folder.
    pub fn names(&self) -> Vec<String> {
        let name = |item: fs::DirEntry| item.file_name().into_string().unwrap();
        let items = fs::read_dir(&self.0).unwrap();
        let mut names: Vec<String> = items.map(|item| name(item.unwrap())).collect();
        names.sort();
        names
    }

    pub fn command(&self, args: &[&str]) -> Command {
        let mut command = command(args);
        command.current_dir(&self.0);
        command
    }

    pub fn hods(&self, args: &[&str]) -> Ran {
        Ran::of(self.command(args).output().unwrap())
    }
}

impl Drop for Folder {
    fn drop(&mut self) {
        let _ = fs::remove_dir_all(&self.0);
    }
}
