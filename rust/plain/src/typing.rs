//! Static types and the check of bodies.

use crate::bundle::{Bundle, Instruction, Method};
use crate::dispatch::{self, Found, Matrix};

/// A set of classes.
pub type Type = [bool; 128];

/// A broken body rule, numbers 14 to 17 and 25 to 27, and the instruction that breaks it.
pub struct BrokenBody {
    pub number: u8,
    pub instruction: usize,
}

/// The type of a class: every class it is under.
pub fn of_class(matrix: &Matrix, class: usize) -> Type {
    matrix.row(class)
}

/// The type of a send: the types of the result classes of all licensing signatures together, or none without a licence.
pub fn of_send(bundle: &Bundle, matrix: &Matrix, function: usize, types: &[Type]) -> Option<Type> {
    let mut union = None;
    for signature in bundle.signatures.iter().filter(|s| s.function == function) {
        if types.iter().zip(&signature.arguments).all(|(set, &class)| set[class]) {
            let result = of_class(matrix, signature.result);
            union = Some(union.map_or(result, |sofar| together(sofar, result)));
        }
    }
    union
}

fn together(mut first: Type, second: Type) -> Type {
    for (inside, &also) in first.iter_mut().zip(&second) {
        *inside |= also;
    }
    first
}

/// The lowest method whose body breaks a rule.
pub fn first_broken_body(bundle: &Bundle, matrix: &Matrix) -> Option<(usize, BrokenBody)> {
    (0..bundle.methods.len()).find_map(|number| {
        let broken = broken_body(bundle, matrix, number)?;
        Some((number, broken))
    })
}

fn broken_body(bundle: &Bundle, matrix: &Matrix, number: usize) -> Option<BrokenBody> {
    let method = &bundle.methods[number];
    let mut stack: Vec<Type> = Vec::new();
    for (at, &instruction) in method.body.iter().enumerate() {
        match typed(bundle, matrix, number, &mut stack, instruction) {
            Ok(pushed) => stack.push(pushed),
            Err(number) => return Some(BrokenBody { number, instruction: at }),
        }
    }
    let end = |number| Some(BrokenBody { number, instruction: method.body.len() });
    match stack[..] {
        [last] if last[method.result] => None,
        [_] => end(17),
        _ => end(14),
    }
}

/// The type that an instruction of a method pushes. A send takes its arguments' types off the stack; a resend takes nothing.
fn typed(
    bundle: &Bundle,
    matrix: &Matrix,
    number: usize,
    stack: &mut Vec<Type>,
    instruction: Instruction,
) -> Result<Type, u8> {
    let method = &bundle.methods[number];
    match instruction {
        Instruction::Arg(place) => Ok(of_argument(matrix, method, place)),
        Instruction::New(class) if bundle.classes[class].concrete => Ok(of_class(matrix, class)),
        Instruction::New(_) => Err(15),
        Instruction::Send(function) => {
            let rest = stack.len().checked_sub(bundle.functions[function]).ok_or(14)?;
            let types = stack.split_off(rest);
            of_send(bundle, matrix, function, &types).ok_or(16)
        }
        Instruction::Resend => match dispatch::overridden(bundle, matrix, number) {
            Found::None => Err(25),
            Found::Rivals(..) => Err(26),
            Found::One(target) => {
                let target = &bundle.methods[target];
                let places = bundle.functions[method.function];
                let held = (0..places).all(|place| of_argument(matrix, method, place)[target.declared[place]]);
                held.then(|| of_class(matrix, target.result)).ok_or(27)
            }
        },
    }
}

/// What a body may rely on of the argument at a place: it is under the specialiser and under the declared class.
fn of_argument(matrix: &Matrix, method: &Method, place: usize) -> Type {
    together(of_class(matrix, method.specialisers[place]), of_class(matrix, method.declared[place]))
}
