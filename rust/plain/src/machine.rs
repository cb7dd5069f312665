//! The stepper.

use crate::bundle::{Bundle, Instruction};
use crate::dispatch::{self, Found, Matrix};
use crate::Triple;

/// How a run ends. Sends are named by function and arguments, body faults by method and instruction.
pub enum Ending {
    Value(usize),
    Spent,
    Deep,
    NoMethod(usize, Triple),
    Rivals(usize, Triple, usize, usize),
    Declared(usize, Triple, usize),
    Values(usize, usize),
    Abstract(usize, usize),
    NoOverridden(usize, usize),
    AmbiguousResend(usize, usize),
    NarrowTarget(usize, usize),
}

/// How a run went.
pub struct Outcome {
    pub ending: Ending,
    /// How many instructions were made, and how many of them were resends.
    pub steps: u32,
    pub resends: u32,
    /// In which frame, counted from below, the run ended at a resend, if it ended at one.
    pub at_resend: Option<usize>,
}

const FRAMES: usize = 32;

/// A method at work: its arguments, the next instruction, and its stack.
struct Frame {
    method: usize,
    arguments: Triple,
    next: usize,
    stack: Vec<usize>,
}

impl Frame {
    fn of(method: usize, arguments: Triple) -> Frame {
        Frame { method, arguments, next: 0, stack: Vec::new() }
    }
}

/// Runs a send with concrete arguments, for at most `count` steps. The opening lookup is no step.
pub fn run(bundle: &Bundle, matrix: &Matrix, function: usize, tuple: Triple, count: u32) -> Outcome {
    let (mut steps, mut resends) = (0, 0);
    let mut frame = match found(bundle, matrix, function, tuple) {
        Ok(method) => Frame::of(method, tuple),
        Err(ending) => return Outcome { ending, steps, resends, at_resend: None },
    };
    let mut callers: Vec<Frame> = Vec::new();
    loop {
        let body = &bundle.methods[frame.method].body;
        let Some(&instruction) = body.get(frame.next) else {
            // The end of a body costs nothing.
            let ending = match frame.stack[..] {
                [value] => match callers.pop() {
                    Some(caller) => {
                        frame = caller;
                        frame.stack.push(value);
                        continue;
                    }
                    None => Ending::Value(value),
                },
                _ => Ending::Values(frame.method, frame.next),
            };
            return Outcome { ending, steps, resends, at_resend: None };
        };
        let depth = callers.len() + 1;
        let at_resend = matches!(instruction, Instruction::Resend).then_some(depth);
        if steps == count {
            return Outcome { ending: Ending::Spent, steps, resends, at_resend };
        }
        match step(bundle, matrix, &mut frame, instruction, depth) {
            Ok(None) => {}
            Ok(Some(opened)) => callers.push(std::mem::replace(&mut frame, opened)),
            Err(ending) => return Outcome { ending, steps, resends, at_resend },
        }
        steps += 1;
        resends += at_resend.is_some() as u32;
    }
}

/// One instruction of the top frame, which is number `depth` from below: the frame that it opens, if it opens one. A
/// failing instruction is not counted.
fn step(
    bundle: &Bundle,
    matrix: &Matrix,
    frame: &mut Frame,
    instruction: Instruction,
    depth: usize,
) -> Result<Option<Frame>, Ending> {
    let mut opened = None;
    match instruction {
        Instruction::Arg(place) => frame.stack.push(frame.arguments[place]),
        Instruction::New(class) if bundle.classes[class].concrete => frame.stack.push(class),
        Instruction::New(_) => return Err(Ending::Abstract(frame.method, frame.next)),
        Instruction::Send(function) => {
            let places = bundle.functions[function];
            let Some(rest) = frame.stack.len().checked_sub(places) else {
                return Err(Ending::Values(frame.method, frame.next));
            };
            let mut tuple = [0; 3];
            tuple[..places].copy_from_slice(&frame.stack[rest..]);
            let method = found(bundle, matrix, function, tuple)?;
            frame.stack.truncate(rest);
            opened = Some(Frame::of(method, tuple));
        }
        Instruction::Resend => opened = Some(Frame::of(target(bundle, matrix, frame)?, frame.arguments)),
    }
    if opened.is_some() && depth == FRAMES {
        return Err(Ending::Deep);
    }
    frame.next += 1;
    Ok(opened)
}

/// The method that a resend of the frame opens another for: 25, 26, 27 in this order where there is none.
fn target(bundle: &Bundle, matrix: &Matrix, frame: &Frame) -> Result<usize, Ending> {
    let places = bundle.functions[bundle.methods[frame.method].function];
    match dispatch::overridden(bundle, matrix, frame.method) {
        Found::None => Err(Ending::NoOverridden(frame.method, frame.next)),
        Found::Rivals(..) => Err(Ending::AmbiguousResend(frame.method, frame.next)),
        Found::One(target) if matrix.all_under(places, frame.arguments, bundle.methods[target].declared) => Ok(target),
        Found::One(_) => Err(Ending::NarrowTarget(frame.method, frame.next)),
    }
}

/// The method that a send opens a frame for: 10, 11, 12 in this order where there is none.
fn found(bundle: &Bundle, matrix: &Matrix, function: usize, tuple: Triple) -> Result<usize, Ending> {
    match dispatch::lookup(bundle, matrix, function, tuple) {
        Found::None => Err(Ending::NoMethod(function, tuple)),
        Found::Rivals(first, second) => Err(Ending::Rivals(function, tuple, first, second)),
        Found::One(method) if matrix.all_under(bundle.functions[function], tuple, bundle.methods[method].declared) => {
            Ok(method)
        }
        Found::One(method) => Err(Ending::Declared(function, tuple, method)),
    }
}
