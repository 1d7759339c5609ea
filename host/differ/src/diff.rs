//! The program `diff`.

use crate::compare::Differ;
use crate::program::Programs;
use crate::run::Difference;
use second::generate::comparison::files;
use second::generate::Random;
use std::io::Error;
use std::path::PathBuf;

/// The program is run with every so many cases.
const RUNS: u64 = 32;

/// Changes the seed for its files.
const SEED: u64 = u64::from_be_bytes(*b"two file");

/// How its two files are named.
#[derive(Debug, Clone, Copy)]
enum Naming {
    Both,
    /// With one more argument.
    Third,
    /// The first file twice.
    Twice,
    /// The file of this place is not there.
    Missing(usize),
    /// In the place of this file stands a folder.
    Folder(usize),
    /// The first argument has no bytes.
    Empty,
    /// Just the first.
    One,
    None,
}

const NAMINGS: [Naming; 9] = [
    Naming::Third,
    Naming::Twice,
    Naming::Missing(0),
    Naming::Missing(1),
    Naming::Folder(0),
    Naming::Folder(1),
    Naming::Empty,
    Naming::One,
    Naming::None,
];

impl Naming {
    fn label(self) -> &'static str {
        match self {
            Naming::Both => "both files",
            Naming::Third => "a third one",
            Naming::Twice => "the first file twice",
            Naming::Missing(0) => "the first not there",
            Naming::Missing(_) => "the second not there",
            Naming::Folder(0) => "a folder for the first",
            Naming::Folder(_) => "a folder for the second",
            Naming::Empty => "the first of no bytes",
            Naming::One => "the first file alone",
            Naming::None => "none",
        }
    }

    /// What is read for each of the two (FORMAT P7).
    fn read(self, files: &[Vec<u8>; 2]) -> [&[u8]; 2] {
        let [one, two] = files;
        match self {
            Naming::Both | Naming::Third => [one, two],
            Naming::Twice => [one, one],
            Naming::Missing(0) | Naming::Folder(0) | Naming::Empty => [&[], two],
            Naming::Missing(_) | Naming::Folder(_) | Naming::One => [one, &[]],
            Naming::None => [&[], &[]],
        }
    }

    /// The arguments, with the files in the folder of the programs.
    fn arguments(self, programs: &Programs, files: &[Vec<u8>; 2]) -> Result<Vec<PathBuf>, Error> {
        let one = programs.file("one", &files[0])?;
        let two = programs.file("two", &files[1])?;
        let (folder, missing) = (programs.folder(), programs.folder().join("missing"));
        Ok(match self {
            Naming::Both => vec![one, two],
            Naming::Third => vec![one.clone(), two, one],
            Naming::Twice => vec![one.clone(), one],
            Naming::Missing(0) => vec![missing, two],
            Naming::Missing(_) => vec![one, missing],
            Naming::Folder(0) => vec![folder, two],
            Naming::Folder(_) => vec![one, folder],
            Naming::Empty => vec![PathBuf::new(), two],
            Naming::One => vec![one],
            Naming::None => vec![],
        })
    }
}

/// Runs the program if it is the turn of this case.
pub fn run(
    differ: &mut Differ,
    programs: &Programs,
    seed: u64,
    index: u64,
) -> Result<(), Difference> {
    if index % RUNS != 0 {
        return Ok(());
    }
    // A stream of its own, so that nothing else depends on what this draws.
    let random = &mut Random::of_case(seed ^ SEED, index);
    let made = files(random);
    let naming = match random.once_in(6) {
        true => random.pick(&NAMINGS),
        false => Naming::Both,
    };
    differ.coverage.count("files of diff", made.label);
    differ.coverage.count("arguments of diff", naming.label());
    let [one, two] = naming.read(&made.files);
    let failed = |answers: String| Difference {
        label: made.label,
        asked: format!(
            "diff with {} and {} bytes, {naming:?}",
            one.len(),
            two.len()
        ),
        answers,
    };
    let written = naming
        .arguments(programs, &made.files)
        .and_then(|arguments| programs.diff(&arguments))
        .map_err(|error| failed(error.to_string()))?;
    differ.diff(one, two, &written).map_err(failed)
}
