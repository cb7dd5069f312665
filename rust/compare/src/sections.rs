//! Where things lie in a bundle's bytes, as its directory states it.

use std::ops::Range;

/// The two-byte number at a place.
pub fn two_bytes(bytes: &[u8], at: usize) -> usize {
    u16::from_le_bytes([bytes[at], bytes[at + 1]]) as usize
}

/// The section that a pair of the directory states.
pub fn section(bundle: &[u8], pair: usize) -> Range<usize> {
    let start = two_bytes(bundle, 4 * pair);
    start..start + two_bytes(bundle, 4 * pair + 2)
}

/// The bytes of each class record, of which the first says whether the class is concrete.
pub fn classes(bundle: &[u8]) -> &[[u8; 6]] {
    bundle[section(bundle, CLASSES.pair)].as_chunks().0
}

/// For each function its argument count.
pub fn functions(bundle: &[u8]) -> &[u8] {
    &bundle[section(bundle, FUNCTIONS)]
}

/// The bytes of each method record.
pub fn methods(bundle: &[u8]) -> &[[u8; 12]] {
    bundle[section(bundle, METHODS.pair)].as_chunks().0
}

/// Records whose lists follow one another in the next section: classes have parents, and methods have instructions.
#[derive(Clone, Copy)]
pub struct Listed {
    /// The records' pair of the directory. The next one is that of the lists.
    pub pair: usize,
    /// The bytes of a record. Its last four state the offset and the length of its list.
    pub record: usize,
    /// The bytes of an entry.
    pub entry: usize,
}

/// The functions' pair of the directory.
const FUNCTIONS: usize = 2;
pub const CLASSES: Listed = Listed { pair: 0, record: 6, entry: 1 };
pub const METHODS: Listed = Listed { pair: 4, record: 12, entry: 2 };

impl Listed {
    pub fn count(&self, bundle: &[u8]) -> usize {
        section(bundle, self.pair).len() / self.record
    }

    /// Where a record states the offset of its list. The length stands two bytes on.
    pub fn offset_at(&self, bundle: &[u8], record: usize) -> usize {
        section(bundle, self.pair).start + (record + 1) * self.record - 4
    }
}
