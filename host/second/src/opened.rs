//! Lookup in an opened book: which answers the rules allow (FORMAT K22 to K24).

use crate::ask::{lookup, part, require_name, require_record};
use crate::name::compare;
use crate::{Record, Refusal, Reply, Report};
use std::cmp::Ordering;

/// What the rules say of an answer.
#[derive(Debug, Clone, Copy, PartialEq, Eq)]
pub enum Expected {
    /// It is this one.
    Exactly(Reply),
    /// It is absent, or found with the asked name at the reported place ([`stands_there`]). Which of
    /// these it is, and with which section, offset and length, no rule says.
    FoundThereOrAbsent,
}

/// What a lookup in an opened book may answer; `opening` is what opening these bytes gives.
pub fn lookup_opened(
    opening: Result<Record, Refusal>,
    file: &[u8],
    record: &Record,
    name: &[u8],
) -> Expected {
    if let Err(refusal) = require_name(name).and_then(|()| require_record(file, record)) {
        return Expected::Exactly(Reply::Refused(refusal)); // FORMAT RO5
    }
    if opening == Ok(*record) {
        Expected::Exactly(lookup(file, record, name, 5).reply()) // FORMAT K23
    } else {
        Expected::FoundThereOrAbsent // FORMAT K24
    }
}

/// Whether a name equal to the asked one stands at the reported place, inside the bytes. The asked
/// name has a byte or more, so the empty part of a range that is not inside is not equal to it.
pub fn stands_there(file: &[u8], report: &Report, name: &[u8]) -> bool {
    compare(part(file, report.place, report.length), name) == Ordering::Equal
}
