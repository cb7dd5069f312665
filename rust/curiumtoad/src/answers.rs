//! The answers, and for each case its number and values (docs/MANUAL.md, part 11).

use std::error::Error;
use std::fmt;
use std::ops::Range;

/// What crosses back from the library: the number of the answer, 0 where nothing is refused, and eight values. Values that
/// mean nothing are 0.
#[derive(Clone, Copy, Debug, PartialEq, Eq)]
pub struct Reply {
    pub number: u8,
    pub values: [u64; 8],
}

impl Reply {
    fn new(number: u8, named: &[u64]) -> Reply {
        let mut values = [0; 8];
        values[..named.len()].copy_from_slice(named);
        Reply { number, values }
    }
}

/// An answer as a reply, and a reply as an answer.
///
/// ```
/// use curiumtoad::{Answer, Lookup};
///
/// let answer = Lookup::Found { method: 3, exact: true };
/// assert_eq!(answer.reply().number, 0);
/// assert_eq!(Lookup::of(answer.reply()), answer);
/// ```
pub trait Answer: Sized {
    /// The answer that a reply of this call stands for.
    ///
    /// # Panics
    ///
    /// On a number that the call never gives.
    fn of(reply: Reply) -> Self;

    /// The number and the values of this answer.
    fn reply(&self) -> Reply;
}

fn never_given(reply: Reply) -> ! {
    panic!("this call never gives {} with {:?}", reply.number, reply.values)
}

/// A function and the classes that it is sent to; unused places hold 0.
#[derive(Clone, Copy, Debug, PartialEq, Eq)]
pub struct Sent {
    pub function: u64,
    pub arguments: [u64; 3],
}

impl Sent {
    fn at(values: &[u64]) -> Sent {
        Sent { function: values[0], arguments: [values[1], values[2], values[3]] }
    }
}

/// How many records of each kind a bundle has.
#[derive(Clone, Copy, Debug, PartialEq, Eq)]
pub struct Counts {
    pub classes: u64,
    pub functions: u64,
    pub signatures: u64,
    pub methods: u64,
}

/// Why a call was refused: the bundle does not open, a buffer is too short, or a number names nothing.
#[derive(Clone, Copy, Debug, PartialEq, Eq)]
pub enum Refusal {
    /// 1: fewer than 24 or more than 65,535 bytes.
    Length,
    /// 2: the directory is wrong, or a section has no whole records.
    Directory,
    /// 3: too many records of a kind, or no class.
    Limits,
    /// 4: this class record breaks its rule.
    Class(u64),
    /// 5: this function record breaks its rule.
    Function(u64),
    /// 6: this signature record breaks its rule.
    Signature(u64),
    /// 7: this method record breaks its rule.
    Method(u64),
    /// 8: an earlier method of the same function has the specialisers of this one.
    Twin(u64),
    /// 9: this method's body has an unknown operation, an operand that names nothing, or a resend with an operand.
    Operand(u64),
    /// 18: an absent function, method, signature or class, an unused argument that is not 0, an abstract class in a run
    /// or a witness, or a witness tuple that the signature does not cover.
    Absent,
    /// 19: the scratch is shorter than 2,048 bytes.
    Scratch,
    /// 20: the row is shorter than 128 bytes.
    Row,
}

impl Refusal {
    fn of(reply: Reply) -> Refusal {
        let record = reply.values[0];
        match reply.number {
            1 => Refusal::Length,
            2 => Refusal::Directory,
            3 => Refusal::Limits,
            4 => Refusal::Class(record),
            5 => Refusal::Function(record),
            6 => Refusal::Signature(record),
            7 => Refusal::Method(record),
            8 => Refusal::Twin(record),
            9 => Refusal::Operand(record),
            18 => Refusal::Absent,
            19 => Refusal::Scratch,
            20 => Refusal::Row,
            _ => never_given(reply),
        }
    }

    fn reply(&self) -> Reply {
        match *self {
            Refusal::Length => Reply::new(1, &[]),
            Refusal::Directory => Reply::new(2, &[]),
            Refusal::Limits => Reply::new(3, &[]),
            Refusal::Class(record) => Reply::new(4, &[record]),
            Refusal::Function(record) => Reply::new(5, &[record]),
            Refusal::Signature(record) => Reply::new(6, &[record]),
            Refusal::Method(record) => Reply::new(7, &[record]),
            Refusal::Twin(record) => Reply::new(8, &[record]),
            Refusal::Operand(record) => Reply::new(9, &[record]),
            Refusal::Absent => Reply::new(18, &[]),
            Refusal::Scratch => Reply::new(19, &[]),
            Refusal::Row => Reply::new(20, &[]),
        }
    }
}

impl fmt::Display for Refusal {
    fn fmt(&self, f: &mut fmt::Formatter<'_>) -> fmt::Result {
        match self {
            Refusal::Length => write!(f, "the bundle is too short or too long"),
            Refusal::Directory => write!(f, "the bundle's directory is wrong"),
            Refusal::Limits => write!(f, "the bundle has too many records, or no class"),
            Refusal::Class(record) => write!(f, "class record {record} breaks its rule"),
            Refusal::Function(record) => write!(f, "function record {record} breaks its rule"),
            Refusal::Signature(record) => write!(f, "signature record {record} breaks its rule"),
            Refusal::Method(record) => write!(f, "method record {record} breaks its rule"),
            Refusal::Twin(record) => write!(f, "method {record} has an earlier twin"),
            Refusal::Operand(record) => write!(f, "the body of method {record} has a wrong operation or operand"),
            Refusal::Absent => write!(f, "a number names nothing that this call takes"),
            Refusal::Scratch => write!(f, "the scratch is too short"),
            Refusal::Row => write!(f, "the row is too short"),
        }
    }
}

impl Error for Refusal {}

impl Answer for Result<Counts, Refusal> {
    fn of(reply: Reply) -> Self {
        match reply.number {
            0 => {
                let [classes, functions, signatures, methods, ..] = reply.values;
                Ok(Counts { classes, functions, signatures, methods })
            }
            _ => Err(Refusal::of(reply)),
        }
    }

    fn reply(&self) -> Reply {
        match self {
            Ok(counts) => Reply::new(0, &[counts.classes, counts.functions, counts.signatures, counts.methods]),
            Err(refusal) => refusal.reply(),
        }
    }
}

/// How one class stands to another.
#[derive(Clone, Copy, Debug, PartialEq, Eq)]
pub enum Ancestry {
    /// They are one class.
    Same,
    /// The first is under the second and is another class.
    Heir,
    /// The first is not under the second; the second may be under the first.
    Neither,
}

impl Answer for Result<Ancestry, Refusal> {
    fn of(reply: Reply) -> Self {
        match (reply.number, reply.values[0]) {
            (0, 0) => Ok(Ancestry::Neither),
            (0, 1) => Ok(Ancestry::Same),
            (0, 2) => Ok(Ancestry::Heir),
            (0, _) => never_given(reply),
            _ => Err(Refusal::of(reply)),
        }
    }

    fn reply(&self) -> Reply {
        match self {
            Ok(Ancestry::Neither) => Reply::new(0, &[0]),
            Ok(Ancestry::Same) => Reply::new(0, &[1]),
            Ok(Ancestry::Heir) => Reply::new(0, &[2]),
            Err(refusal) => refusal.reply(),
        }
    }
}

impl Answer for Result<Range<usize>, Refusal> {
    fn of(reply: Reply) -> Self {
        match reply.number {
            0 => {
                let [offset, length, ..] = reply.values.map(|value| value as usize);
                Ok(offset..offset + length)
            }
            _ => Err(Refusal::of(reply)),
        }
    }

    fn reply(&self) -> Reply {
        match self {
            Ok(range) => Reply::new(0, &[range.start as u64, range.len() as u64]),
            Err(refusal) => refusal.reply(),
        }
    }
}

/// The length of a listing, or none where the buffer is too short.
impl Answer for Option<usize> {
    fn of(reply: Reply) -> Self {
        match reply.number {
            0 => Some(reply.values[0] as usize),
            20 => None,
            _ => never_given(reply),
        }
    }

    fn reply(&self) -> Reply {
        match self {
            Some(length) => Reply::new(0, &[*length as u64]),
            None => Reply::new(20, &[]),
        }
    }
}

/// The answer of a lookup.
#[derive(Clone, Copy, Debug, PartialEq, Eq)]
pub enum Lookup {
    /// The send finds this method; exact where each of its specialisers is the argument class at that place.
    Found { method: u64, exact: bool },
    /// 10: no method applies.
    NoMethod(Sent),
    /// 11: no applicable method is at least as specific as every other; the two highest unbeaten ones, higher first.
    Rivals(Sent, [u64; 2]),
    /// The call was refused.
    Refused(Refusal),
}

impl Answer for Lookup {
    fn of(reply: Reply) -> Self {
        let v = reply.values;
        match (reply.number, v[1]) {
            (0, 0) => Lookup::Found { method: v[0], exact: false },
            (0, 1) => Lookup::Found { method: v[0], exact: true },
            (0, _) => never_given(reply),
            (10, _) => Lookup::NoMethod(Sent::at(&v)),
            (11, _) => Lookup::Rivals(Sent::at(&v), [v[4], v[5]]),
            _ => Lookup::Refused(Refusal::of(reply)),
        }
    }

    fn reply(&self) -> Reply {
        match self {
            Lookup::Found { method, exact } => Reply::new(0, &[*method, *exact as u64]),
            Lookup::NoMethod(sent) => sent_reply(10, sent, &[]),
            Lookup::Rivals(sent, rivals) => sent_reply(11, sent, rivals),
            Lookup::Refused(refusal) => refusal.reply(),
        }
    }
}

fn sent_reply(number: u8, sent: &Sent, methods: &[u64]) -> Reply {
    let [a0, a1, a2] = sent.arguments;
    Reply::new(number, &[&[sent.function, a0, a1, a2], methods].concat())
}

/// The answer of a rough call, by what the tuples find that have a concrete class under the upper class at each place.
#[derive(Clone, Copy, Debug, PartialEq, Eq)]
pub enum Rough {
    /// Every tuple finds this method.
    One(u64),
    /// Some tuple finds no method, or rivals, whatever the others find.
    MayFail,
    /// Every tuple finds a method, and not all find the same.
    Several,
    /// 24: an upper class has no concrete class under it.
    NoConcrete,
    /// The call was refused.
    Refused(Refusal),
}

impl Answer for Rough {
    fn of(reply: Reply) -> Self {
        match (reply.number, reply.values[0]) {
            (0, 0) => Rough::One(reply.values[1]),
            (0, 1) => Rough::MayFail,
            (0, 2) => Rough::Several,
            (0, _) => never_given(reply),
            (24, _) => Rough::NoConcrete,
            _ => Rough::Refused(Refusal::of(reply)),
        }
    }

    fn reply(&self) -> Reply {
        match self {
            Rough::One(method) => Reply::new(0, &[0, *method]),
            Rough::MayFail => Reply::new(0, &[1]),
            Rough::Several => Reply::new(0, &[2]),
            Rough::NoConcrete => Reply::new(24, &[]),
            Rough::Refused(refusal) => refusal.reply(),
        }
    }
}

/// The answer of a send type call; the type itself is in the row.
#[derive(Clone, Copy, Debug, PartialEq, Eq)]
pub enum SendType {
    /// The row holds the type.
    Typed,
    /// 16: no signature licenses the send.
    NoLicence,
    /// The call was refused.
    Refused(Refusal),
}

impl Answer for SendType {
    fn of(reply: Reply) -> Self {
        match reply.number {
            0 => SendType::Typed,
            16 => SendType::NoLicence,
            _ => SendType::Refused(Refusal::of(reply)),
        }
    }

    fn reply(&self) -> Reply {
        match self {
            SendType::Typed => Reply::new(0, &[]),
            SendType::NoLicence => Reply::new(16, &[]),
            SendType::Refused(refusal) => refusal.reply(),
        }
    }
}

/// The answer of a chart call; the line itself is at the start of the buffer.
#[derive(Clone, Copy, Debug, PartialEq, Eq)]
pub enum Chart {
    /// The line has so many bytes.
    Line(usize),
    /// 21: the function has not two arguments.
    NotBinary,
    /// 22: the chart has fewer lines.
    NoLine,
    /// 23: the buffer is shorter than the line.
    ShortLine,
    /// The call was refused.
    Refused(Refusal),
}

impl Answer for Chart {
    fn of(reply: Reply) -> Self {
        match reply.number {
            0 => Chart::Line(reply.values[0] as usize),
            21 => Chart::NotBinary,
            22 => Chart::NoLine,
            23 => Chart::ShortLine,
            _ => Chart::Refused(Refusal::of(reply)),
        }
    }

    fn reply(&self) -> Reply {
        match self {
            Chart::Line(length) => Reply::new(0, &[*length as u64]),
            Chart::NotBinary => Reply::new(21, &[]),
            Chart::NoLine => Reply::new(22, &[]),
            Chart::ShortLine => Reply::new(23, &[]),
            Chart::Refused(refusal) => refusal.reply(),
        }
    }
}

/// Why a tuple breaks the coverage of a signature.
#[derive(Clone, Copy, Debug, PartialEq, Eq)]
pub enum Fault {
    /// 10: no method applies.
    NoMethod,
    /// 11: no applicable method leads; the two highest unbeaten ones, higher first.
    Rivals([u64; 2]),
    /// 12: an argument class is not under the declared class of the method found.
    Declared(u64),
    /// 13: the result class of the method found is not under the signature's.
    Result(u64),
}

/// A signature whose coverage is broken, with a tuple that breaks it.
#[derive(Clone, Copy, Debug, PartialEq, Eq)]
pub struct BrokenSignature {
    pub signature: u64,
    pub sent: Sent,
    pub fault: Fault,
}

impl BrokenSignature {
    /// The broken signature of a reply of number 10 to 13.
    fn of(reply: Reply) -> Option<BrokenSignature> {
        let v = reply.values;
        let fault = match reply.number {
            10 => Fault::NoMethod,
            11 => Fault::Rivals([v[5], v[6]]),
            12 => Fault::Declared(v[5]),
            13 => Fault::Result(v[5]),
            _ => return None,
        };
        Some(BrokenSignature { signature: v[0], sent: Sent::at(&v[1..]), fault })
    }

    fn reply(&self) -> Reply {
        let (number, methods): (u8, &[u64]) = match &self.fault {
            Fault::NoMethod => (10, &[]),
            Fault::Rivals(rivals) => (11, rivals),
            Fault::Declared(method) => (12, std::slice::from_ref(method)),
            Fault::Result(method) => (13, std::slice::from_ref(method)),
        };
        let [a0, a1, a2] = self.sent.arguments;
        Reply::new(number, &[&[self.signature, self.sent.function, a0, a1, a2], methods].concat())
    }
}

/// Which body rule is broken.
#[derive(Clone, Copy, Debug, PartialEq, Eq)]
pub enum BodyFault {
    /// 14: a send with too few values, or an end with none or with several.
    Values,
    /// 15: NEW of an abstract class.
    Abstract,
    /// 16: no signature licenses the send.
    NoLicence,
    /// 17: the type left at the end does not contain the method's result class.
    Result,
    /// 25: a resend of a method that overrides no other.
    NoOverridden,
    /// 26: a resend of a method that overrides others, none of which leads.
    AmbiguousResend,
    /// 27: a declared class of the method that a resend goes to is not in the type of the argument.
    NarrowTarget,
}

/// A method whose body breaks a rule, and the instruction that does; the end counts as one more instruction.
#[derive(Clone, Copy, Debug, PartialEq, Eq)]
pub struct BrokenBody {
    pub method: u64,
    pub instruction: u64,
    pub fault: BodyFault,
}

impl BrokenBody {
    /// The broken body of a reply of number 14 to 17 or 25 to 27.
    fn of(reply: Reply) -> Option<BrokenBody> {
        let fault = match reply.number {
            14 => BodyFault::Values,
            15 => BodyFault::Abstract,
            16 => BodyFault::NoLicence,
            17 => BodyFault::Result,
            25 => BodyFault::NoOverridden,
            26 => BodyFault::AmbiguousResend,
            27 => BodyFault::NarrowTarget,
            _ => return None,
        };
        Some(BrokenBody { method: reply.values[0], instruction: reply.values[1], fault })
    }

    fn reply(&self) -> Reply {
        let number = match self.fault {
            BodyFault::Values => 14,
            BodyFault::Abstract => 15,
            BodyFault::NoLicence => 16,
            BodyFault::Result => 17,
            BodyFault::NoOverridden => 25,
            BodyFault::AmbiguousResend => 26,
            BodyFault::NarrowTarget => 27,
        };
        Reply::new(number, &[self.method, self.instruction])
    }
}

/// What a check found broken in a bundle that opens.
#[derive(Clone, Copy, Debug, PartialEq, Eq)]
pub enum Finding {
    /// The lowest broken signature.
    Coverage(BrokenSignature),
    /// The lowest broken method, where no signature is broken.
    Body(BrokenBody),
}

impl Finding {
    fn of(reply: Reply) -> Option<Finding> {
        BrokenSignature::of(reply).map(Finding::Coverage).or_else(|| BrokenBody::of(reply).map(Finding::Body))
    }

    fn reply(&self) -> Reply {
        match self {
            Finding::Coverage(broken) => broken.reply(),
            Finding::Body(broken) => broken.reply(),
        }
    }
}

/// The answer of a check.
#[derive(Clone, Copy, Debug, PartialEq, Eq)]
pub enum Verdict {
    /// Every signature is covered and every body keeps the rules.
    Accepted,
    /// Something is broken.
    Broken(Finding),
    /// The call was refused.
    Refused(Refusal),
}

impl Answer for Verdict {
    fn of(reply: Reply) -> Self {
        match (reply.number, Finding::of(reply)) {
            (0, _) => Verdict::Accepted,
            (_, Some(finding)) => Verdict::Broken(finding),
            (_, None) => Verdict::Refused(Refusal::of(reply)),
        }
    }

    fn reply(&self) -> Reply {
        match self {
            Verdict::Accepted => Reply::new(0, &[]),
            Verdict::Broken(finding) => finding.reply(),
            Verdict::Refused(refusal) => refusal.reply(),
        }
    }
}

/// The answer of a witness check.
#[derive(Clone, Copy, Debug, PartialEq, Eq)]
pub enum Witness {
    /// The coverage rule holds for the tuple.
    Holds,
    /// The tuple breaks the signature's coverage.
    Broken(BrokenSignature),
    /// The call was refused.
    Refused(Refusal),
}

impl Answer for Witness {
    fn of(reply: Reply) -> Self {
        match (reply.number, BrokenSignature::of(reply)) {
            (0, _) => Witness::Holds,
            (_, Some(broken)) => Witness::Broken(broken),
            (_, None) => Witness::Refused(Refusal::of(reply)),
        }
    }

    fn reply(&self) -> Reply {
        match self {
            Witness::Holds => Reply::new(0, &[]),
            Witness::Broken(broken) => broken.reply(),
            Witness::Refused(refusal) => refusal.reply(),
        }
    }
}

/// How a run ends.
#[derive(Clone, Copy, Debug, PartialEq, Eq)]
pub enum Ending {
    /// The opening body ended with this class.
    Value(u64),
    /// The steps made equal the count, and an instruction is left.
    Spent,
    /// A send or a resend would need a 33rd frame.
    Deep,
    /// 10: no method applies to this send.
    NoMethod(Sent),
    /// 11: no applicable method leads for this send; the two highest unbeaten ones, higher first.
    Rivals(Sent, [u64; 2]),
    /// 12: an argument class is not under the declared class of this method, which the send finds.
    Declared(Sent, u64),
    /// 14: a send with too few values, or an end with none or with several.
    Values { method: u64, instruction: u64 },
    /// 15: NEW of an abstract class.
    Abstract { method: u64, instruction: u64 },
    /// 25: a resend of this method, which overrides no other.
    NoOverridden { method: u64, instruction: u64 },
    /// 26: a resend of this method, which overrides others, none of which leads.
    AmbiguousResend { method: u64, instruction: u64 },
    /// 27: a resend of this method; an argument class is not under the declared class of the method that it goes to.
    NarrowTarget { method: u64, instruction: u64 },
}

/// The answer of a run.
#[derive(Clone, Copy, Debug, PartialEq, Eq)]
pub enum Run {
    /// The run ended after these steps.
    Ended { ending: Ending, steps: u64 },
    /// The call was refused.
    Refused(Refusal),
}

impl Answer for Run {
    fn of(reply: Reply) -> Self {
        let v = reply.values;
        let ending = match (reply.number, v[0]) {
            (0, 0) => Ending::Value(v[1]),
            (0, 1) => Ending::Spent,
            (0, 2) => Ending::Deep,
            (0, _) => never_given(reply),
            (10, _) => Ending::NoMethod(Sent::at(&v)),
            (11, _) => Ending::Rivals(Sent::at(&v), [v[4], v[5]]),
            (12, _) => Ending::Declared(Sent::at(&v), v[4]),
            (14, method) => Ending::Values { method, instruction: v[1] },
            (15, method) => Ending::Abstract { method, instruction: v[1] },
            (25, method) => Ending::NoOverridden { method, instruction: v[1] },
            (26, method) => Ending::AmbiguousResend { method, instruction: v[1] },
            (27, method) => Ending::NarrowTarget { method, instruction: v[1] },
            _ => return Run::Refused(Refusal::of(reply)),
        };
        Run::Ended { ending, steps: v[7] }
    }

    fn reply(&self) -> Reply {
        let (ending, steps) = match self {
            Run::Ended { ending, steps } => (ending, steps),
            Run::Refused(refusal) => return refusal.reply(),
        };
        let mut reply = match ending {
            Ending::Value(class) => Reply::new(0, &[0, *class]),
            Ending::Spent => Reply::new(0, &[1]),
            Ending::Deep => Reply::new(0, &[2]),
            Ending::NoMethod(sent) => sent_reply(10, sent, &[]),
            Ending::Rivals(sent, rivals) => sent_reply(11, sent, rivals),
            Ending::Declared(sent, method) => sent_reply(12, sent, &[*method]),
            Ending::Values { method, instruction } => Reply::new(14, &[*method, *instruction]),
            Ending::Abstract { method, instruction } => Reply::new(15, &[*method, *instruction]),
            Ending::NoOverridden { method, instruction } => Reply::new(25, &[*method, *instruction]),
            Ending::AmbiguousResend { method, instruction } => Reply::new(26, &[*method, *instruction]),
            Ending::NarrowTarget { method, instruction } => Reply::new(27, &[*method, *instruction]),
        };
        reply.values[7] = *steps;
        reply
    }
}

/// The answer of a run of an accepted bundle. It has no case for a send, a resend or a body that fails: none does.
#[derive(Clone, Copy, Debug, PartialEq, Eq)]
pub enum AcceptedRun {
    /// The opening body ended with this class.
    Value { class: u64, steps: u64 },
    /// The steps made equal the count, and an instruction is left.
    Spent { steps: u64 },
    /// A send or a resend would need a 33rd frame.
    Deep { steps: u64 },
    /// The bundle is not accepted, and nothing was run.
    NotAccepted(Finding),
    /// The bundle is accepted, but no signature covers the send, and nothing was run.
    NotCovered,
    /// The call was refused.
    Refused(Refusal),
}

impl Answer for AcceptedRun {
    fn of(reply: Reply) -> Self {
        let v = reply.values;
        match (reply.number, v[0]) {
            (0, 0) => AcceptedRun::Value { class: v[1], steps: v[7] },
            (0, 1) => AcceptedRun::Spent { steps: v[7] },
            (0, 2) => AcceptedRun::Deep { steps: v[7] },
            (0, _) => never_given(reply),
            (18, 1) => AcceptedRun::NotCovered,
            _ => match Finding::of(reply) {
                Some(finding) => AcceptedRun::NotAccepted(finding),
                None => AcceptedRun::Refused(Refusal::of(reply)),
            },
        }
    }

    fn reply(&self) -> Reply {
        match self {
            AcceptedRun::Value { class, steps } => Reply::new(0, &[0, *class, 0, 0, 0, 0, 0, *steps]),
            AcceptedRun::Spent { steps } => Reply::new(0, &[1, 0, 0, 0, 0, 0, 0, *steps]),
            AcceptedRun::Deep { steps } => Reply::new(0, &[2, 0, 0, 0, 0, 0, 0, *steps]),
            AcceptedRun::NotAccepted(finding) => finding.reply(),
            AcceptedRun::NotCovered => Reply::new(18, &[1]),
            AcceptedRun::Refused(refusal) => refusal.reply(),
        }
    }
}
