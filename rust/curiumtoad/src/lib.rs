//! A safe interface to the verified library of bundles, sends and bodies.
//!
//! A *bundle* is a small binary file of classes, functions, signatures, methods and method bodies. Every call takes the
//! bundle's bytes and opens them anew; no state is kept between calls, and no call can fail but by its answer. The calls
//! other than [`open`], [`body`] and [`listing`] take a scratch of [`SCRATCH`] bytes or more, into which they write which class is
//! under which: bit b mod 8, the least significant first, of byte 16·a + b / 8 is 1 when class a is under class b, else 0.
//! Later bytes are left alone, and so is the whole scratch where the bundle does not open or the scratch is too short.
//!
//! Functions, classes, methods and signatures are numbers, counted from 0; any may be passed, and one that is absent is
//! refused. The classes of a call are three, whatever the function's argument count; unused places hold 0.
//!
//! ```
//! use curiumtoad::{check, lookup, Lookup, Verdict, SCRATCH};
//!
//! let bundle = std::fs::read("../../bundles/chart-4.bundle")?;
//! let mut scratch = [0; SCRATCH];
//! assert_eq!(check(&bundle, &mut scratch), Verdict::Accepted);
//! assert_eq!(lookup(&bundle, &mut scratch, 0, [2, 4, 0]), Lookup::Found { method: 3, exact: true });
//! # Ok::<(), std::io::Error>(())
//! ```

mod answers;
pub mod raw;

pub use answers::{
    AcceptedRun, Ancestry, Answer, BodyFault, BrokenBody, BrokenSignature, Chart, Counts, Ending, Fault, Finding,
    Lookup, Refusal, Reply, Rough, Run, SendType, Sent, Verdict, Witness,
};

use std::ops::Range;

/// The version of the library's C functions that this crate declares.
pub const VERSION: u32 = 5;
/// The least length of a scratch.
pub const SCRATCH: usize = 2_048;
/// The least length of a row.
pub const ROW: usize = 128;
/// A length that is enough for the listing of any bundle.
pub const TEXT: usize = 512;
/// A length that is enough for any line of a chart.
pub const LINE: usize = 645;

/// The version that the library was built with. Where it is not [`VERSION`], this crate is not made for the library that
/// is linked, and no other function may be called.
///
/// ```
/// assert_eq!(curiumtoad::version(), curiumtoad::VERSION);
/// ```
pub fn version() -> u32 {
    raw::version()
}

/// Opens the bundle and counts its records.
///
/// ```
/// use curiumtoad::{open, Counts, Refusal};
///
/// let bundle = std::fs::read("../../bundles/chart-3.bundle")?;
/// assert_eq!(open(&bundle), Ok(Counts { classes: 8, functions: 1, signatures: 1, methods: 3 }));
/// assert_eq!(open(&bundle[..23]), Err(Refusal::Length));
/// assert_eq!(open(&[]), Err(Refusal::Length));
/// # Ok::<(), std::io::Error>(())
/// ```
pub fn open(bundle: &[u8]) -> Result<Counts, Refusal> {
    Answer::of(raw::reply(|values| raw::open(bundle, values)))
}

/// How class `a` stands to class `b`: the same class, a proper heir of it, or neither.
///
/// ```
/// use curiumtoad::{ancestry, Ancestry, Refusal, SCRATCH};
///
/// let bundle = std::fs::read("../../bundles/chart-3.bundle")?;
/// let mut scratch = [0; SCRATCH];
/// assert_eq!(ancestry(&bundle, &mut scratch, 4, 4), Ok(Ancestry::Same));
/// assert_eq!(ancestry(&bundle, &mut scratch, 4, 3), Ok(Ancestry::Heir));
/// assert_eq!(ancestry(&bundle, &mut scratch, 3, 4), Ok(Ancestry::Neither));
/// assert_eq!(ancestry(&bundle, &mut scratch, 3, 8), Err(Refusal::Absent));
/// // The bit for classes 4 and 3.
/// assert_eq!(scratch[16 * 4] >> 3 & 1, 1);
/// # Ok::<(), std::io::Error>(())
/// ```
pub fn ancestry(bundle: &[u8], scratch: &mut [u8], a: u64, b: u64) -> Result<Ancestry, Refusal> {
    Answer::of(raw::reply(|values| raw::ancestry(bundle, scratch, a, b, values)))
}

/// The method that a send finds: of those that apply, the one that is at least as specific as all the rest. It is exact where
/// its specialisers are the argument classes, as they always are without arguments. Where there is no such method, two rivals
/// are named, applicable methods that no other one is at least as specific as: those with the highest numbers, the higher
/// one first. Abstract classes are looked up too.
///
/// ```
/// use curiumtoad::{lookup, Lookup, Sent, SCRATCH};
///
/// let bundle = std::fs::read("../../bundles/chart-3.bundle")?;
/// let mut scratch = [0; SCRATCH];
/// assert_eq!(lookup(&bundle, &mut scratch, 0, [1, 4, 0]), Lookup::Found { method: 0, exact: true });
/// let sent = Sent { function: 0, arguments: [2, 4, 0] };
/// assert_eq!(lookup(&bundle, &mut scratch, 0, [2, 4, 0]), Lookup::Rivals(sent, [1, 0]));
/// // Method 1 is for class 2, and class 3 is under that.
/// let bundle = std::fs::read("../../bundles/upper-classes.bundle")?;
/// assert_eq!(lookup(&bundle, &mut scratch, 0, [3, 0, 0]), Lookup::Found { method: 1, exact: false });
/// # Ok::<(), std::io::Error>(())
/// ```
pub fn lookup(bundle: &[u8], scratch: &mut [u8], function: u64, arguments: [u64; 3]) -> Lookup {
    Answer::of(raw::reply(|values| raw::lookup(bundle, scratch, function, arguments, values)))
}

/// What a send finds whose arguments are known only roughly, each to be under an upper class, which may be abstract. Every
/// tuple counts that has a concrete class under the upper class at each place, that class itself included where it is
/// concrete. Signatures and declared classes play no part.
///
/// With classes under the upper ones in their stead, [`Rough::One`] stays that method, and [`Rough::Several`] becomes
/// [`Rough::Several`] or [`Rough::One`], unless one of these has no concrete class under it.
///
/// ```
/// use curiumtoad::{rough, Rough, SCRATCH};
///
/// let bundle = std::fs::read("../../bundles/chart-4.bundle")?;
/// let mut scratch = [0; SCRATCH];
/// assert_eq!(rough(&bundle, &mut scratch, 0, [0, 0, 0]), Rough::MayFail);
/// assert_eq!(rough(&bundle, &mut scratch, 0, [1, 3, 0]), Rough::Several);
/// assert_eq!(rough(&bundle, &mut scratch, 0, [2, 4, 0]), Rough::One(3));
/// # Ok::<(), std::io::Error>(())
/// ```
pub fn rough(bundle: &[u8], scratch: &mut [u8], function: u64, uppers: [u64; 3]) -> Rough {
    Answer::of(raw::reply(|values| raw::rough(bundle, scratch, function, uppers, values)))
}

/// The static type of a send, for a class at each argument place: byte b of the row's first [`ROW`] bytes becomes 1 when
/// class b is in the type, else 0. The row is left alone by every answer but [`SendType::Typed`].
///
/// ```
/// use curiumtoad::{send_type, SendType, ROW, SCRATCH};
///
/// let bundle = std::fs::read("../../bundles/chart-5.bundle")?;
/// let mut scratch = [0; SCRATCH];
/// let mut row = [0; ROW];
/// assert_eq!(send_type(&bundle, &mut scratch, &mut row, 0, [2, 4, 0]), SendType::Typed);
/// let classes: Vec<usize> = (0..ROW).filter(|&class| row[class] == 1).collect();
/// assert_eq!(classes, [0, 5, 7]);
/// assert_eq!(send_type(&bundle, &mut scratch, &mut row, 0, [0, 0, 0]), SendType::NoLicence);
/// # Ok::<(), std::io::Error>(())
/// ```
pub fn send_type(bundle: &[u8], scratch: &mut [u8], row: &mut [u8], function: u64, arguments: [u64; 3]) -> SendType {
    Answer::of(raw::reply(|values| raw::send_type(bundle, scratch, row, function, arguments, values)))
}

/// Checks the bundle: first the coverage of each signature, then each body. A refused bundle is named by its lowest
/// broken signature, with its first broken tuple (by class numbers, the leftmost argument turning slowest), or by its lowest
/// broken method.
///
/// ```
/// use curiumtoad::{check, BodyFault, Fault, Finding, Verdict, SCRATCH};
///
/// let bundle = std::fs::read("../../bundles/chart-3.bundle")?;
/// let Verdict::Broken(Finding::Coverage(broken)) = check(&bundle, &mut [0; SCRATCH]) else { panic!() };
/// assert_eq!(broken.signature, 0);
/// assert_eq!(broken.sent.arguments, [2, 4, 0]);
/// assert_eq!(broken.fault, Fault::Rivals([1, 0]));
/// // A method resends, and overrides no other.
/// let bundle = std::fs::read("../../bundles/no-overridden.bundle")?;
/// let Verdict::Broken(Finding::Body(broken)) = check(&bundle, &mut [0; SCRATCH]) else { panic!() };
/// assert_eq!(broken.fault, BodyFault::NoOverridden);
/// # Ok::<(), std::io::Error>(())
/// ```
pub fn check(bundle: &[u8], scratch: &mut [u8]) -> Verdict {
    Answer::of(raw::reply(|values| raw::check(bundle, scratch, values)))
}

/// The coverage rule for one signature and one tuple of concrete classes that it covers.
///
/// ```
/// use curiumtoad::{witness, Witness, SCRATCH};
///
/// let bundle = std::fs::read("../../bundles/chart-3.bundle")?;
/// assert_eq!(witness(&bundle, &mut [0; SCRATCH], 0, [1, 3, 0]), Witness::Holds);
/// # Ok::<(), std::io::Error>(())
/// ```
pub fn witness(bundle: &[u8], scratch: &mut [u8], signature: u64, arguments: [u64; 3]) -> Witness {
    Answer::of(raw::reply(|values| raw::witness(bundle, scratch, signature, arguments, values)))
}

/// The part of the bundle that is the method's code: pairs of operation and operand. The operations are 0, an argument; 1, a new
/// instance of a class; 2, a send of a function; and 3, a resend, whose operand is 0.
///
/// ```
/// use curiumtoad::{body, Refusal};
///
/// let bundle = std::fs::read("../../bundles/chart-3.bundle")?;
/// assert_eq!(body(&bundle, 1), Ok(&[1, 7][..]));
/// assert_eq!(body(&bundle, 3), Err(Refusal::Absent));
/// # Ok::<(), std::io::Error>(())
/// ```
pub fn body(bundle: &[u8], method: u64) -> Result<&[u8], Refusal> {
    let range: Result<Range<usize>, Refusal> = Answer::of(raw::reply(|values| raw::body(bundle, method, values)));
    range.map(|range| &bundle[range])
}

/// Runs a send with concrete argument classes, for at most `count` steps. The bundle need not be accepted.
///
/// ```
/// use curiumtoad::{run, Ending, Run, SCRATCH};
///
/// let bundle = std::fs::read("../../bundles/loop.bundle")?;
/// let mut scratch = [0; SCRATCH];
/// assert_eq!(run(&bundle, &mut scratch, 0, [0; 3], 31), Run::Ended { ending: Ending::Spent, steps: 31 });
/// assert_eq!(run(&bundle, &mut scratch, 0, [0; 3], 32), Run::Ended { ending: Ending::Deep, steps: 31 });
/// # Ok::<(), std::io::Error>(())
/// ```
pub fn run(bundle: &[u8], scratch: &mut [u8], function: u64, arguments: [u64; 3], count: u32) -> Run {
    Answer::of(raw::reply(|values| raw::run(bundle, scratch, function, arguments, count, values)))
}

/// Checks the bundle and runs a send that a signature covers. No send and no resend of such a run fails, so the run ends with a
/// value, with its steps spent, or too deep.
///
/// ```
/// use curiumtoad::{run_accepted, AcceptedRun, SCRATCH};
///
/// let bundle = std::fs::read("../../bundles/chart-4.bundle")?;
/// let mut scratch = [0; SCRATCH];
/// let answer = run_accepted(&bundle, &mut scratch, 0, [2, 4, 0], 1);
/// assert_eq!(answer, AcceptedRun::Value { class: 7, steps: 1 });
/// assert_eq!(run_accepted(&bundle, &mut scratch, 0, [6, 7, 0], 1), AcceptedRun::NotCovered);
/// # Ok::<(), std::io::Error>(())
/// ```
pub fn run_accepted(bundle: &[u8], scratch: &mut [u8], function: u64, arguments: [u64; 3], count: u32) -> AcceptedRun {
    Answer::of(raw::reply(|values| raw::run_accepted(bundle, scratch, function, arguments, count, values)))
}

/// The listing of a bundle, whether it opens or not, at the start of the buffer: the counts, and what the check says. None
/// where the buffer is too short, which is then left alone; [`TEXT`] bytes are always enough.
///
/// ```
/// use curiumtoad::{listing, TEXT};
///
/// let bundle = std::fs::read("../../bundles/chart-4.bundle")?;
/// let expected = "classes 8 functions 1 signatures 1 methods 4\naccepted\n";
/// assert_eq!(listing(&bundle, &mut [0; TEXT]), Some(expected));
/// assert_eq!(listing(&bundle, &mut [0; 20]), None);
/// # Ok::<(), std::io::Error>(())
/// ```
pub fn listing<'text>(bundle: &[u8], text: &'text mut [u8]) -> Option<&'text str> {
    let length: usize = Option::of(raw::reply(|values| raw::listing(bundle, text, values)))?;
    Some(std::str::from_utf8(&text[..length]).expect("a listing is ASCII"))
}

/// A line of the chart of a function of two arguments, at the start of the buffer, which is left alone by every answer but
/// [`Chart::Line`]; [`LINE`] bytes are always enough. Line 0 has the concrete classes. Each other line has one of them, in their
/// order, and what a lookup finds for it as the first argument and each of them as the second: a method, `-` for none, `*` for
/// rivals. The bundle need not be accepted.
///
/// ```
/// use curiumtoad::{chart, Chart, LINE, SCRATCH};
///
/// let bundle = std::fs::read("../../bundles/chart-3.bundle")?;
/// let (mut scratch, mut text) = ([0; SCRATCH], [0; LINE]);
/// assert_eq!(chart(&bundle, &mut scratch, &mut text, 0, 2), Chart::Line(35));
/// assert_eq!(text[..35], *b"   2    -    -    1    *    -    -\n");
/// assert_eq!(chart(&bundle, &mut scratch, &mut text, 0, 7), Chart::NoLine);
/// # Ok::<(), std::io::Error>(())
/// ```
pub fn chart(bundle: &[u8], scratch: &mut [u8], text: &mut [u8], function: u64, line: u64) -> Chart {
    Answer::of(raw::reply(|values| raw::chart(bundle, scratch, text, function, line, values)))
}
