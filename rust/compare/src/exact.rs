//! Lookups that find a method for exactly the classes of the send, by the bytes of the method's record.

use crate::sections::{functions, methods};
use curiumtoad::raw::Values;

/// Kinds of lookups that find a method, each of which has to be met.
pub const KINDS: [&str; 7] = [
    "exact",
    "exact without arguments",
    "not exact",
    "the same at the first place alone",
    "the same at all places but the first",
    "the same at all places but the second",
    "the same at all places but the third",
];

/// Of which of the kinds a lookup is; it can be of more than one.
pub type Kinds = [bool; KINDS.len()];

/// The kinds of a lookup on a bundle that opens, given the method that it found.
pub fn kinds(bundle: &[u8], function: u64, arguments: [u64; 3], method: u64) -> Kinds {
    let places = functions(bundle)[function as usize] as usize;
    let specialisers = &methods(bundle)[method as usize][1..4];
    let same: Vec<bool> = (0..places).map(|place| u64::from(specialisers[place]) == arguments[place]).collect();
    let others: Vec<usize> = (0..places).filter(|&place| !same[place]).collect();
    let all_but = |place| places > 1 && others == [place];
    [
        others.is_empty(),
        places == 0,
        !others.is_empty(),
        places > 1 && same[0] && others.len() == places - 1,
        all_but(0),
        all_but(1),
        all_but(2),
    ]
}

/// The method of a bundle that opens whose record begins with the function and the classes of a send. No other has the same.
fn written_for(bundle: &[u8], [function, a, b, c]: [u64; 4]) -> Option<u64> {
    let is_for = |record: &[u8; 12]| [record[0], record[1], record[2], record[3]].map(u64::from) == [function, a, b, c];
    methods(bundle).iter().position(is_for).map(|method| method as u64)
}

/// Whether the answer of a lookup is exact just where some method is written for the send, and then finds that one. The bundle
/// opens, and the scratch was long enough.
pub fn agrees(bundle: &[u8], sent: [u64; 4], (number, values): (u8, Values)) -> bool {
    let [method, exact, ..] = values;
    written_for(bundle, sent) == (number == 0 && exact == 1).then_some(method)
}
