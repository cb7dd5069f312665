//! Bundles, sends and bodies by the rules, written for reading and for nothing else.
//!
//! This is an implementation of its own: it shares no code with the verified library, and serves to compare with it.
//! Each call takes numbers, lends buffers, and gives a [`Reply`]: the number of the answer, 0 where nothing is refused, and
//! eight values, of which those that mean nothing are 0.

mod bundle;
mod chart;
mod coverage;
mod dispatch;
mod listing;
mod machine;
mod rough;
mod tuples;
mod typing;

use bundle::{Broken, Bundle};
use coverage::Fault;
use dispatch::{Ancestry, Found, Matrix};
use machine::{Ending, Outcome};
use rough::Rough;

/// The classes of a call, a signature or a method, place by place. Unused places hold 0.
pub type Triple = [usize; 3];

/// The least length of the scratch: a bit for each pair of classes.
pub const SCRATCH: usize = 128 * 128 / 8;
/// The least length of the row.
pub const ROW: usize = 128;
/// A length of buffer that is enough for every listing.
pub const TEXT: usize = 512;
/// A length of buffer that is enough for every line of a chart: that of 128 concrete classes.
pub const LINE: usize = 5 + 5 * 128;

/// What a call gives back.
#[derive(Clone, Copy, Debug, PartialEq, Eq)]
pub struct Reply {
    /// The number, or 0 where nothing is refused.
    pub number: u8,
    /// What the number or the answer names, in the order of the table of numbers (docs/MANUAL.md, part 11).
    pub values: [u64; 8],
}

impl Reply {
    fn new(number: u8, named: &[usize]) -> Reply {
        let mut values = [0; 8];
        for (value, &name) in values.iter_mut().zip(named) {
            *value = name as u64;
        }
        Reply { number, values }
    }

    fn with_steps(mut self, steps: u32) -> Reply {
        self.values[7] = steps.into();
        self
    }
}

impl From<Broken> for Reply {
    fn from(broken: Broken) -> Reply {
        match broken.record {
            Some(record) => Reply::new(broken.number, &[record]),
            None => Reply::new(broken.number, &[]),
        }
    }
}

const ABSENT: u8 = 18;
const SHORT_SCRATCH: u8 = 19;
/// Of a row, or of the buffer for a listing.
const SHORT_BUFFER: u8 = 20;
const NOT_BINARY: u8 = 21;
const NO_LINE: u8 = 22;
/// Of the buffer for a line of a chart.
const SHORT_LINE: u8 = 23;
const NO_CONCRETE: u8 = 24;

/// Opens the bundle: the counts of classes, functions, signatures and methods.
pub fn open(bundle: &[u8]) -> Reply {
    match Bundle::open(bundle) {
        Err(broken) => broken.into(),
        Ok(b) => Reply::new(0, &[b.classes.len(), b.functions.len(), b.signatures.len(), b.methods.len()]),
    }
}

/// How class `a` stands to class `b`: 1 where they are the same, 2 where `a` is a proper heir of `b`, else 0.
pub fn ancestry(bundle: &[u8], scratch: &mut [u8], a: u64, b: u64) -> Reply {
    let (bundle, matrix) = match prepare(bundle, scratch) {
        Err(refusal) => return refusal,
        Ok(prepared) => prepared,
    };
    let (a, b) = (a as usize, b as usize);
    if a >= bundle.classes.len() || b >= bundle.classes.len() {
        return Reply::new(ABSENT, &[]);
    }
    match matrix.ancestry(a, b) {
        Ancestry::Neither => Reply::new(0, &[0]),
        Ancestry::Same => Reply::new(0, &[1]),
        Ancestry::Heir => Reply::new(0, &[2]),
    }
}

/// The method that a send finds, and 1 where it is for exactly the classes of the send, else 0.
pub fn lookup(bundle: &[u8], scratch: &mut [u8], function: u64, arguments: [u64; 3]) -> Reply {
    let (bundle, matrix) = match prepare(bundle, scratch) {
        Err(refusal) => return refusal,
        Ok(prepared) => prepared,
    };
    let (f, t) = numbers(function, arguments);
    if !send_present(&bundle, f, t) {
        return Reply::new(ABSENT, &[]);
    }
    match dispatch::lookup(&bundle, &matrix, f, t) {
        Found::One(method) => {
            let exact = dispatch::is_exact(&bundle, &matrix, &bundle.methods[method], t);
            Reply::new(0, &[method, exact as usize])
        }
        Found::None => Reply::new(10, &[f, t[0], t[1], t[2]]),
        Found::Rivals(m, n) => Reply::new(11, &[f, t[0], t[1], t[2], m, n]),
    }
}

/// What a send finds whose arguments are known only to be under these classes: 0 with the method where each tuple of concrete
/// classes under them finds that one, 1 where one of them fails, else 2.
pub fn rough(bundle: &[u8], scratch: &mut [u8], function: u64, uppers: [u64; 3]) -> Reply {
    let (bundle, matrix) = match prepare(bundle, scratch) {
        Err(refusal) => return refusal,
        Ok(prepared) => prepared,
    };
    let (f, uppers) = numbers(function, uppers);
    if !send_present(&bundle, f, uppers) {
        return Reply::new(ABSENT, &[]);
    }
    let used = &uppers[..bundle.functions[f]];
    if used.iter().any(|&upper| tuples::concrete_under(&bundle, &matrix, upper).next().is_none()) {
        return Reply::new(NO_CONCRETE, &[]);
    }
    match rough::rough(&bundle, &matrix, f, used) {
        Rough::One(method) => Reply::new(0, &[0, method]),
        Rough::MayFail => Reply::new(0, &[1]),
        Rough::Several => Reply::new(0, &[2]),
    }
}

/// The static type of a send, written to the row.
pub fn send_type(bundle: &[u8], scratch: &mut [u8], row: &mut [u8], function: u64, arguments: [u64; 3]) -> Reply {
    let (bundle, matrix) = match prepare(bundle, scratch) {
        Err(refusal) => return refusal,
        Ok(prepared) => prepared,
    };
    if row.len() < ROW {
        return Reply::new(SHORT_BUFFER, &[]);
    }
    let (f, t) = numbers(function, arguments);
    if !send_present(&bundle, f, t) {
        return Reply::new(ABSENT, &[]);
    }
    let types: Vec<_> = t[..bundle.functions[f]].iter().map(|&class| typing::of_class(&matrix, class)).collect();
    match typing::of_send(&bundle, &matrix, f, &types) {
        None => Reply::new(16, &[]),
        Some(send) => {
            for (byte, &inside) in row.iter_mut().zip(&send) {
                *byte = inside as u8;
            }
            Reply::new(0, &[])
        }
    }
}

/// The check: accepted, or what is broken.
pub fn check(bundle: &[u8], scratch: &mut [u8]) -> Reply {
    match prepare(bundle, scratch) {
        Err(refusal) => refusal,
        Ok((bundle, matrix)) => verdict(&bundle, &matrix),
    }
}

/// The coverage rule for one signature and one tuple.
pub fn witness(bundle: &[u8], scratch: &mut [u8], signature: u64, arguments: [u64; 3]) -> Reply {
    let (bundle, matrix) = match prepare(bundle, scratch) {
        Err(refusal) => return refusal,
        Ok(prepared) => prepared,
    };
    let (number, tuple) = numbers(signature, arguments);
    let Some(signature) = bundle.signatures.get(number) else {
        return Reply::new(ABSENT, &[]);
    };
    let lawful = send_present(&bundle, signature.function, tuple)
        && all_concrete(&bundle, signature.function, tuple)
        && coverage::covers(&bundle, &matrix, signature, tuple);
    if !lawful {
        return Reply::new(ABSENT, &[]);
    }
    match coverage::fault(&bundle, &matrix, signature, tuple) {
        None => Reply::new(0, &[]),
        Some(fault) => broken_signature(number, signature.function, tuple, fault),
    }
}

/// Where the method's code lies in the bundle: its offset and its length.
pub fn body(bundle: &[u8], method: u64) -> Reply {
    let bundle = match Bundle::open(bundle) {
        Err(broken) => return broken.into(),
        Ok(bundle) => bundle,
    };
    match bundle.methods.get(method as usize) {
        None => Reply::new(ABSENT, &[]),
        Some(method) => Reply::new(0, &[method.code_start, 2 * method.body.len()]),
    }
}

/// A run of one send.
pub fn run(bundle: &[u8], scratch: &mut [u8], function: u64, arguments: [u64; 3], count: u32) -> Reply {
    let (bundle, matrix) = match prepare(bundle, scratch) {
        Err(refusal) => return refusal,
        Ok(prepared) => prepared,
    };
    run_of(&bundle, &matrix, function, arguments, count).map_or(Reply::new(ABSENT, &[]), ended)
}

/// The run of a send, where it is one of concrete classes.
fn run_of(bundle: &Bundle, matrix: &Matrix, function: u64, arguments: [u64; 3], count: u32) -> Option<Outcome> {
    let (f, t) = numbers(function, arguments);
    let lawful = send_present(bundle, f, t) && all_concrete(bundle, f, t);
    lawful.then(|| machine::run(bundle, matrix, f, t, count))
}

/// How a run had to do with resends.
#[derive(Clone, Copy, Debug, PartialEq, Eq)]
pub struct Resends {
    /// How many it made.
    pub made: u32,
    /// In which frame, counted from below, it ended at one, if it did: spent before it, too deep for it, or stopped by it.
    pub ended_in: Option<usize>,
}

/// How the run of one send had to do with resends; none where the call is refused.
pub fn resends(bundle: &[u8], function: u64, arguments: [u64; 3], count: u32) -> Option<Resends> {
    let bundle = Bundle::open(bundle).ok()?;
    let outcome = run_of(&bundle, &Matrix::of(&bundle), function, arguments, count)?;
    Some(Resends { made: outcome.resends, ended_in: outcome.at_resend })
}

/// A run of one send on an accepted bundle. A refusal of the run comes first, then the check, then an opening send that
/// no signature covers, which is 18 with first value 1.
pub fn run_accepted(bundle: &[u8], scratch: &mut [u8], function: u64, arguments: [u64; 3], count: u32) -> Reply {
    let (bundle, matrix) = match prepare(bundle, scratch) {
        Err(refusal) => return refusal,
        Ok(prepared) => prepared,
    };
    let (f, t) = numbers(function, arguments);
    if !send_present(&bundle, f, t) || !all_concrete(&bundle, f, t) {
        return Reply::new(ABSENT, &[]);
    }
    let verdict = verdict(&bundle, &matrix);
    if verdict.number != 0 {
        return verdict;
    }
    if !bundle.signatures.iter().any(|s| s.function == f && coverage::covers(&bundle, &matrix, s, t)) {
        return Reply::new(ABSENT, &[1]);
    }
    ended(machine::run(&bundle, &matrix, f, t, count))
}

/// The listing, written to the start of the buffer: its length.
pub fn listing(bundle: &[u8], text: &mut [u8]) -> Reply {
    written(&listing::lines(bundle), text, SHORT_BUFFER)
}

/// A line of the chart of a function of two arguments, written to the start of the buffer: its length.
pub fn chart(bundle: &[u8], scratch: &mut [u8], text: &mut [u8], function: u64, line: u64) -> Reply {
    let (bundle, matrix) = match prepare(bundle, scratch) {
        Err(refusal) => return refusal,
        Ok(prepared) => prepared,
    };
    let (function, line) = (function as usize, line as usize);
    match bundle.functions.get(function) {
        None => return Reply::new(ABSENT, &[]),
        Some(2) => {}
        Some(_) => return Reply::new(NOT_BINARY, &[]),
    }
    match chart::line(&bundle, &matrix, function, line) {
        None => Reply::new(NO_LINE, &[]),
        Some(line) => written(&line, text, SHORT_LINE),
    }
}

/// Writes to the start of the buffer, and gives the length; or, where the buffer is too short, only the number for that.
fn written(lines: &str, text: &mut [u8], short: u8) -> Reply {
    match text.get_mut(..lines.len()) {
        None => Reply::new(short, &[]),
        Some(start) => {
            start.copy_from_slice(lines.as_bytes());
            Reply::new(0, &[lines.len()])
        }
    }
}

/// Opens the bundle and fills the scratch, or says why not.
fn prepare(bundle: &[u8], scratch: &mut [u8]) -> Result<(Bundle, Matrix), Reply> {
    let bundle = Bundle::open(bundle)?;
    if scratch.len() < SCRATCH {
        return Err(Reply::new(SHORT_SCRATCH, &[]));
    }
    let matrix = Matrix::of(&bundle);
    matrix.write(&mut scratch[..SCRATCH]);
    Ok((bundle, matrix))
}

/// The numbers of a call. Nothing is cut off where a `usize` has 64 bits, as on the library's own machines.
fn numbers(first: u64, arguments: [u64; 3]) -> (usize, Triple) {
    (first as usize, arguments.map(|a| a as usize))
}

/// Whether the function and the class at each used place are there, and the unused places are 0.
fn send_present(bundle: &Bundle, function: usize, tuple: Triple) -> bool {
    function < bundle.functions.len() && bundle.lawful_places(function, tuple)
}

fn all_concrete(bundle: &Bundle, function: usize, tuple: Triple) -> bool {
    tuple[..bundle.functions[function]].iter().all(|&class| bundle.classes[class].concrete)
}

/// Coverage before bodies.
fn verdict(bundle: &Bundle, matrix: &Matrix) -> Reply {
    if let Some((signature, tuple, fault)) = coverage::first_broken(bundle, matrix) {
        return broken_signature(signature, bundle.signatures[signature].function, tuple, fault);
    }
    match typing::first_broken_body(bundle, matrix) {
        Some((method, broken)) => Reply::new(broken.number, &[method, broken.instruction]),
        None => Reply::new(0, &[]),
    }
}

fn broken_signature(s: usize, f: usize, t: Triple, fault: Fault) -> Reply {
    match fault {
        Fault::NoMethod => Reply::new(10, &[s, f, t[0], t[1], t[2]]),
        Fault::Rivals(m, n) => Reply::new(11, &[s, f, t[0], t[1], t[2], m, n]),
        Fault::Declared(m) => Reply::new(12, &[s, f, t[0], t[1], t[2], m]),
        Fault::Result(m) => Reply::new(13, &[s, f, t[0], t[1], t[2], m]),
    }
}

fn ended(outcome: Outcome) -> Reply {
    let reply = match outcome.ending {
        Ending::Value(class) => Reply::new(0, &[0, class]),
        Ending::Spent => Reply::new(0, &[1]),
        Ending::Deep => Reply::new(0, &[2]),
        Ending::NoMethod(f, t) => Reply::new(10, &[f, t[0], t[1], t[2]]),
        Ending::Rivals(f, t, m, n) => Reply::new(11, &[f, t[0], t[1], t[2], m, n]),
        Ending::Declared(f, t, m) => Reply::new(12, &[f, t[0], t[1], t[2], m]),
        Ending::Values(method, instruction) => Reply::new(14, &[method, instruction]),
        Ending::Abstract(method, instruction) => Reply::new(15, &[method, instruction]),
        Ending::NoOverridden(method, instruction) => Reply::new(25, &[method, instruction]),
        Ending::AmbiguousResend(method, instruction) => Reply::new(26, &[method, instruction]),
        Ending::NarrowTarget(method, instruction) => Reply::new(27, &[method, instruction]),
    };
    reply.with_steps(outcome.steps)
}
