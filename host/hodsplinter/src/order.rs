//! The order of names.

use std::cmp::Ordering;

use crate::sys;

/// Compares names by the order of a book, as the library tells it: byte by byte with `A` to `Z` raised to `a` to `z`; of a name and its beginning, the beginning comes
/// first (docs/FORMAT.md, S1, S2, S5). Any bytes have an order, also those that are no name of a book.
///
/// ```
/// use hodsplinter::name_order;
/// use std::cmp::Ordering;
///
/// assert_eq!(name_order(b"/A", b"/a"), Ordering::Equal);
/// assert_eq!(name_order(b"/a", b"/a.htm"), Ordering::Less);
/// assert_eq!(name_order(b"/[", b"/Z"), Ordering::Less);
/// ```
pub fn name_order(a: &[u8], b: &[u8]) -> Ordering {
    match sys::name_order(a, b) {
        0 => Ordering::Less,
        1 => Ordering::Equal,
        _ => Ordering::Greater,
    }
}
