//! Opening, ancestry, check and rough answers, optimised by hand: a peer to measure the library against.
//!
//! - A class's ancestors are a set of 128 bits, and so is a static type. The matrix in the scratch is these sets as they are.
//! - The methods of a function are kept in an order in which a more specific method comes first. Parents have lower
//!   numbers, so falling order of specialisers is one. The only method that can lead a set of applicable methods is
//!   then the first of it, and one comparison of sets says whether it does.
//! - For each place and class one set of bits holds the methods that apply there, so narrowing is an AND.
//! - Classes that no method tells apart at a place are tried once, and sets of methods that were found good are kept.
//! - What a method overrides are those that apply to its specialisers, itself left out: the next of the order is the target of
//!   a resend, or there is none.
//! - A rough answer is the same search, for a tuple that does not find what the first one finds, then for one that fails.
//!
//! The numbers and values are those of the library's calls, the first broken tuple in number order included.

mod bodies;
mod coverage;
mod layout;

use coverage::{Functions, Rough};
use layout::Tables;

/// The least length of the scratch: a bit for each pair of classes.
pub const SCRATCH: usize = 128 * 128 / 8;

/// What is broken: the number and the values named beside it.
#[derive(Clone, Copy, Debug, PartialEq, Eq)]
pub struct Broken {
    number: u8,
    values: [u64; 8],
}

impl Broken {
    fn new(number: u8, named: &[u64]) -> Broken {
        Broken { number, values: eight(named) }
    }
}

/// The values of an answer, of which those that mean nothing are 0.
fn eight(named: &[u64]) -> [u64; 8] {
    let mut values = [0; 8];
    values[..named.len()].copy_from_slice(named);
    values
}

/// Opens a bundle: its number, 0 where it opens, and the four counts or the record.
pub fn open(bundle: &[u8], values: &mut [u64; 8]) -> u8 {
    said(Tables::open(bundle).map(|tables| eight(&tables.counts())), values)
}

/// How class `a` stands to class `b`: the number, and where it is 0 a 1 for the same class, a 2 for a proper heir, else 0.
pub fn ancestry(bundle: &[u8], scratch: &mut [u8], a: u64, b: u64, values: &mut [u64; 8]) -> u8 {
    said(related(bundle, scratch, a, b).map(|answer| eight(&[answer])), values)
}

/// Checks a bundle: its number, 0 where it is accepted, and the values.
pub fn check(bundle: &[u8], scratch: &mut [u8], values: &mut [u64; 8]) -> u8 {
    said(verdict(bundle, scratch).map(|()| eight(&[])), values)
}

/// What a send finds whose arguments are known only to be under the upper classes: the number, and where it is 0 the kind of
/// the answer, with the method where it is one.
pub fn rough(bundle: &[u8], scratch: &mut [u8], function: u64, uppers: [u64; 3], values: &mut [u64; 8]) -> u8 {
    let answer = rough_answer(bundle, scratch, function, uppers).map(|answer| match answer {
        Rough::One(method) => eight(&[0, method.into()]),
        Rough::MayFail => eight(&[1]),
        Rough::Several => eight(&[2]),
    });
    said(answer, values)
}

fn said(answer: Result<[u64; 8], Broken>, values: &mut [u64; 8]) -> u8 {
    let number;
    (number, *values) = match answer {
        Ok(values) => (0, values),
        Err(broken) => (broken.number, broken.values),
    };
    number
}

fn related(bundle: &[u8], scratch: &mut [u8], a: u64, b: u64) -> Result<u64, Broken> {
    let tables = prepare(bundle, scratch)?;
    if a.max(b) >= tables.classes as u64 {
        return Err(Broken::new(18, &[]));
    }
    if a == b {
        return Ok(1);
    }
    Ok(if tables.under(a as u8, b as u8) { 2 } else { 0 })
}

fn verdict(bundle: &[u8], scratch: &mut [u8]) -> Result<(), Broken> {
    let tables = prepare(bundle, scratch)?;
    let mut functions = Functions::of(&tables);
    coverage::check(&tables, &mut functions)?;
    bodies::check(&tables, &mut functions)
}

fn rough_answer(bundle: &[u8], scratch: &mut [u8], function: u64, uppers: [u64; 3]) -> Result<Rough, Broken> {
    let tables = prepare(bundle, scratch)?;
    // No function and no class has the number 255, so it can stand for all above.
    let byte = |number: u64| number.min(255) as u8;
    let (function, uppers) = (byte(function), uppers.map(byte));
    match tables.functions.get(function as usize) {
        Some(&arguments) if tables.lawful(arguments, uppers) => {}
        _ => return Err(Broken::new(18, &[])),
    }
    coverage::rough(&tables, function, uppers).ok_or(Broken::new(24, &[]))
}

/// Opens a bundle and fills the scratch.
fn prepare<'a>(bundle: &'a [u8], scratch: &mut [u8]) -> Result<Tables<'a>, Broken> {
    let tables = Tables::open(bundle)?;
    let Some(matrix) = scratch.first_chunk_mut::<SCRATCH>() else {
        return Err(Broken::new(19, &[]));
    };
    write_matrix(&tables, matrix);
    Ok(tables)
}

/// Writes each ancestor set as its 16 bytes. The sets of absent classes are empty.
fn write_matrix(tables: &Tables, matrix: &mut [u8; SCRATCH]) {
    let (rows, _) = matrix.as_chunks_mut::<16>();
    for (row, set) in rows.iter_mut().zip(&tables.ancestors) {
        *row = set.to_le_bytes();
    }
}
