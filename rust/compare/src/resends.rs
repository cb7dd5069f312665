//! Resends: bundles in which most methods of a function resend, and what the runs of resends come to.

use crate::generate;
use builder::{Method, Parts, Random, ARG, NEW, RESEND, SEND};

/// The function whose methods resend.
const LINE: u8 = 0;
/// A function of so many arguments that takes values off the stack, and leaves the first of them.
const ONE: u8 = 1;
const TWO: u8 = 2;

/// A bundle that opens: methods in a line, each of which overrides all before it, in any order. Some of the bundles are accepted.
pub fn parts(random: &mut Random) -> Parts {
    loop {
        // A line of 33 methods needs one frame too many.
        let length = random.of(&[2, 3, 6, 31, 32, 33, 40, 60]);
        let concrete = random.of(&[1, 2, 4]);
        let kind = random.below(8);
        let mut parts = if kind < 2 { full(random) } else { line(random, length, concrete) };
        if (2..5).contains(&kind) {
            disturb(&mut parts, random);
        }
        for at in 1..parts.methods.len() {
            parts.methods.swap(at, random.below(at + 1));
        }
        if generate::within(&parts, generate::WORK) {
            return parts;
        }
    }
}

/// The line, from the method that overrides none on. One class in so many is concrete, and the last one is.
fn line(random: &mut Random, length: u8, concrete: usize) -> Parts {
    let mut parts = Parts::default();
    for number in 0..length {
        let parents: &[u8] = if number == 0 { &[] } else { &[number - 1] };
        parts.class(random.once_in(concrete) || number == length - 1, parents);
    }
    let places = random.of(&[1, 1, 2, 2, 3]);
    parts.functions.extend([places, 1, 2]);
    for function in [LINE, ONE, TWO] {
        parts.signature(function, [0; 3], 0);
    }
    let mut specialisers = [0; 3];
    for number in 0..length {
        let body = if number == 0 { top(random, places, length) } else { resending(random) };
        add_method(&mut parts, specialisers, body);
        let class = &mut specialisers[random.below(places.into())];
        *class = (*class + 1).min(length - 1);
    }
    for taker in [ONE, TWO] {
        parts.method(taker, [0; 3], 0, &[[ARG, 0]]);
    }
    parts
}

/// Changes a few things of a line. Without a signature it is the bodies that the check finds broken.
fn disturb(parts: &mut Parts, random: &mut Random) {
    if !random.once_in(3) {
        parts.signatures.remove(LINE.into());
    }
    let classes = parts.classes.len();
    let places = parts.functions[LINE as usize] as usize;
    for _ in 0..random.of(&[1, 2, 4]) {
        // Most runs come to where the line ends.
        let anywhere = random.below(classes);
        let at = random.of(&[0, anywhere]);
        let place = random.below(places);
        let class = random.below(classes) as u8;
        match random.below(7) {
            0 => parts.methods[at].body = resending(random),
            1..=2 => {
                // The method overrides this one and the one before it in the line, and neither leads where they differ.
                let mut beside = parts.methods[anywhere].specialisers;
                beside[place] = beside[place].saturating_sub(1);
                add_method(parts, beside, resending(random));
            }
            3..=4 => parts.methods[at].declared[place] = class,
            5 => {
                // What a target declares is in the type of the argument by the declared class alone.
                for method in parts.methods.iter_mut().filter(|method| method.function == LINE) {
                    method.declared[place] = class;
                }
            }
            _ => parts.methods[at].result = class,
        }
    }
}

/// A line in which the run from the last method has no frame left when it comes to a resend that fails.
fn full(random: &mut Random) -> Parts {
    let narrow = random.once_in(2);
    let mut parts = line(random, if narrow { 33 } else { 32 }, 1);
    if narrow {
        let beside = parts.class(true, &[0]);
        parts.methods[0].declared[0] = beside;
    } else {
        parts.methods[0].body = resending(random);
    }
    parts
}

/// Adds a method of the line's function.
fn add_method(parts: &mut Parts, specialisers: [u8; 3], body: Vec<[u8; 2]>) {
    generate::add_method(parts, Method { function: LINE, specialisers, declared: specialisers, result: 0, body });
}

/// The body of the method that overrides none: a value, or a send that begins the line anew.
fn top(random: &mut Random, places: u8, classes: u8) -> Vec<[u8; 2]> {
    match random.below(3) {
        0 => vec![[ARG, 0]],
        1 => vec![[NEW, classes - 1]],
        _ => (0..places).map(|place| [ARG, place]).chain([[SEND, LINE]]).collect(),
    }
}

/// A body with a resend at its start, in its middle or at its end, or with two.
fn resending(random: &mut Random) -> Vec<[u8; 2]> {
    match random.below(8) {
        0..=3 => vec![[RESEND, 0]],
        4 => vec![[RESEND, 0], [SEND, ONE]],
        5 => vec![[ARG, 0], [RESEND, 0], [SEND, TWO]],
        6 => vec![[RESEND, 0], [ARG, 0], [SEND, TWO]],
        _ => vec![[RESEND, 0], [RESEND, 0], [SEND, TWO]],
    }
}

/// Kinds of runs, each of which has to be met.
pub const KINDS: [&str; 7] = [
    "stopped by 25",
    "stopped by 26",
    "stopped by 27",
    "stopped at a resend with no frame left",
    "spent at a resend",
    "deep at a resend",
    "with a resend on an accepted bundle",
];

/// Of which of the kinds a run is; it can be of more than one.
pub type Kinds = [bool; KINDS.len()];

/// The kinds of a run that ended with the number and the values.
pub fn kinds(resends: plain::Resends, accepted: bool, number: u8, values: [u64; 8]) -> Kinds {
    let ended = |ending: u64| resends.ended_in.is_some() && number == 0 && values[0] == ending;
    [
        number == 25,
        number == 26,
        number == 27,
        number != 0 && resends.ended_in == Some(FRAMES),
        ended(SPENT),
        ended(DEEP),
        accepted && resends.made > 0,
    ]
}

/// How many frames there may be.
const FRAMES: usize = 32;
/// How a run of number 0 ends, by its first value.
const SPENT: u64 = 1;
const DEEP: u64 = 2;
