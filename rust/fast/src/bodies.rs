//! The check of bodies, with types as sets of 128 bits.

use crate::coverage::{self, Functions};
use crate::layout::Tables;
use crate::Broken;

pub fn check(tables: &Tables, functions: &mut Functions) -> Result<(), Broken> {
    let by_function = by_function(tables);
    for (number, record) in tables.methods.iter().enumerate() {
        if let Some((broken, instruction)) = broken_body(tables, functions, &by_function, record) {
            return Err(Broken::new(broken, &[number as u64, instruction as u64]));
        }
    }
    Ok(())
}

/// A signature as a send sees it: the argument classes, and the type of the result.
struct Licence {
    arguments: [u8; 3],
    result: u128,
}

/// The licences in the order of their functions, and where each function's begin.
struct ByFunction {
    licences: Vec<Licence>,
    starts: [u16; 65],
}

fn by_function(tables: &Tables) -> ByFunction {
    let mut starts = [0u16; 65];
    for signature in tables.signatures {
        starts[signature[0] as usize + 1] += 1;
    }
    for function in 0..64 {
        starts[function + 1] += starts[function];
    }
    let mut next = starts;
    let mut order = [0u8; 256];
    for (number, signature) in tables.signatures.iter().enumerate() {
        let place = &mut next[signature[0] as usize];
        order[*place as usize] = number as u8;
        *place += 1;
    }
    let licences = order[..tables.signatures.len()]
        .iter()
        .map(|&number| {
            let [_, a, b, c, result] = tables.signatures[number as usize];
            Licence { arguments: [a, b, c], result: tables.ancestors[result as usize] }
        })
        .collect();
    ByFunction { licences, starts }
}

fn broken_body(
    tables: &Tables,
    functions: &mut Functions,
    signatures: &ByFunction,
    record: &[u8; 12],
) -> Option<(u8, usize)> {
    // A body has at most 64 instructions, and each leaves one type more at most.
    let mut stack = [0u128; 64];
    let mut height = 0;
    let body = tables.body(record);
    for (at, &[operation, operand]) in body.iter().enumerate() {
        let pushed = match operation {
            0 => argument_type(tables, record, operand as usize),
            1 if tables.concrete >> operand & 1 == 1 => tables.ancestors[operand as usize],
            1 => return Some((15, at)),
            2 => {
                let places = tables.functions[operand as usize] as usize;
                if height < places {
                    return Some((14, at));
                }
                height -= places;
                let sent = sent_type(signatures, operand, &stack[height..height + places]);
                if sent == 0 {
                    return Some((16, at));
                }
                sent
            }
            _ => match coverage::target(tables, functions, record) {
                Ok(target) if declared_in(tables, record, target) => tables.ancestors[target[7] as usize],
                Ok(_) => return Some((27, at)),
                Err(number) => return Some((number, at)),
            },
        };
        stack[height] = pushed;
        height += 1;
    }
    if height != 1 {
        return Some((14, body.len()));
    }
    if stack[0] >> record[7] & 1 == 0 {
        return Some((17, body.len()));
    }
    None
}

fn argument_type(tables: &Tables, record: &[u8; 12], place: usize) -> u128 {
    tables.ancestors[record[1 + place] as usize] | tables.ancestors[record[4 + place] as usize]
}

/// Whether the target's declared classes are in the types of a method's arguments. Unused places hold 0, which is in every type.
fn declared_in(tables: &Tables, record: &[u8; 12], target: &[u8; 12]) -> bool {
    (0..3).all(|place| argument_type(tables, record, place) >> target[4 + place] & 1 == 1)
}

/// The union of the licensing signatures' result types; empty where none licenses.
fn sent_type(signatures: &ByFunction, function: u8, types: &[u128]) -> u128 {
    let (start, end) = (signatures.starts[function as usize], signatures.starts[function as usize + 1]);
    let mut union = 0;
    for licence in &signatures.licences[start as usize..end as usize] {
        if types.iter().zip(licence.arguments).all(|(set, class)| set >> class & 1 == 1) {
            union |= licence.result;
        }
    }
    union
}
