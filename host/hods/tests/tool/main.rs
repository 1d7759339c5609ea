//! The tool as it is run: what it prints, what it leaves behind, how it ends.

mod cat;
mod check;
mod compare;
mod find;
mod list;
mod names;
mod pipe;
mod run;
mod usage;
mod write;
