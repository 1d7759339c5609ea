//! What `--help` prints.

pub const HODS: &str = "\
Usage: hods COMMAND [OPTION].. [ARGUMENT]..

Checks, lists, searches, compares and writes compiled HTML Help books (CHM).

Commands:
  check BOOK..           whether books keep every rule
  list BOOK              the entries of a book
  find BOOK NAME..       where names stand, or that they are absent
  cat BOOK NAME          the stored bytes of an entry of section 0
  compare OLD NEW        which entries two issues of a book do not share
  write -o BOOK DIR      a new book of the files in a folder, or of a list

Options of every command:
  -h, --help             this text, or that of the command
  -V, --version          the version
  --                     what follows is no option

BOOK may be -, standard input, and so may one of OLD and NEW.
hods COMMAND --help says more.

Exit status: 0 good; 1 a rule refused something, a name is absent, or two books
differ; 2 wrong usage, or something could not be read or written.
";

pub const CHECK: &str = "\
Usage: hods check [-q] BOOK..

Checks whether each book keeps every rule of docs/FORMAT.md and says the first
rule that fails, where in the file, and what stands there.

  -q, --quiet            print nothing on good books
";

pub const LIST: &str = "\
Usage: hods list [--json | --frames] BOOK

Prints a line for each entry: section, offset, length, name. Bytes of a name
that do not print are written as \\xNN, a backslash as \\\\.

      --json             an array of objects with name, section, offset, length;
                         a name that is not UTF-8 is null, with its name_hex
      --frames           the bytes of each entry in hexadecimal, as they stand,
                         padding too; a refusal is ee, its number, its chunk
";

pub const FIND: &str = "\
Usage: hods find [--trail] [--count] [--names FILE] BOOK [NAME]..
       hods find --chain [--names FILE] BOOK [NAME]..

Looks each name up and says section, offset and length of its entry, or that it
is absent. The letters A to Z and a to z are the same in a name.

      --names FILE       look up the names in this file too, a line each, behind
                         those that are given; - is standard input
      --trail            print the numbers of the chunks opened on the way too
      --count            print how many times the name was compared too
      --chain            look along the chain of listing chunks, without the
                         index. A book that only refusal 14, a broken index,
                         keeps from opening is told so and searched all the same

A line of FILE ends with LF or CR LF and is a name as it stands, unescaped.
An empty line is refused, as is every name of other than 1 to 1,024 bytes.
";

pub const CAT: &str = "\
Usage: hods cat BOOK NAME

Writes the bytes of an entry to standard output. Only entries of section 0 are
stored as they are; of other sections this says so.
";

pub const COMPARE: &str = "\
Usage: hods compare [--json | -q] [--html FILE [-f]] OLD NEW

Lays two books side by side, entry against entry, and prints in the order of
names: with - an entry that only OLD has, with + one that only NEW has, with ~
one whose section, offset or length changed, and from what to what; at the end
how many there are of each, and how many are the same. The letters A to Z and a
to z are the same in a name. The exit status is 1 where the books differ.

      --json             an object with the totals and an array of differences,
                         each with kind, old and new, entries as of hods list
  -q, --quiet            print nothing: the exit status alone tells
      --html FILE        write a page that shows the differences side by side,
                         and print no more than how many there are
  -f, --force            replace a page that is there
";

pub const WRITE: &str = "\
Usage: hods write -o BOOK [OPTION].. DIR
       hods write -o BOOK [OPTION].. --list FILE --content FILE

Writes a new book: of the files in DIR and in the folders below it, in section 0
with / and their path as names; or of the entries in a list, with a file for the
content. A line of the list is SECTION OFFSET LENGTH NAME, as hods list prints
it; empty lines and lines that start with # are skipped. On any error nothing is
written.

  -o, --output BOOK      the new book
  -f, --force            replace a file that is there
      --list FILE        the entries; - is standard input
      --content FILE     the content; - is standard input
      --density N        density of the quick words, 0 to 7 (2)
      --time N           the time in the header (0)
      --language N       the language in the headers (0x409)

Numbers are decimal, or hexadecimal behind 0x.
";
