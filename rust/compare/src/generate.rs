//! Bundles that open: of many sizes and shapes, and often repaired until the check accepts them.

use crate::alike;
use crate::hierarchy::Hierarchy;
use builder::{Method, Parts, Random, ARG, NEW, RESEND, SEND};

/// How many tuples a check of the bundle may have to try, times methods, so that no bundle takes long.
pub const WORK: usize = 60_000;
const MORE_WORK: usize = 600_000;
pub const MUCH_WORK: usize = 6_000_000;

/// A bundle that opens.
pub fn parts(random: &mut Random, number: usize) -> Parts {
    // Many concrete classes, and few methods that tell them apart.
    let crowded = number % 16 == 3;
    let work = match number % 400 {
        7 => MUCH_WORK,
        _ if crowded => MORE_WORK,
        _ => WORK,
    };
    loop {
        let mut parts = drawn(random, crowded);
        let repairs = random.of(&[0, 0, 1, 3, 200, 200, 200, 200]);
        if within(&parts, work) && repair(&mut parts, random, repairs, work) {
            match random.below(7) {
                0..=1 if repairs == 200 => spoil(&mut parts, random),
                2..=3 if repairs == 200 => alike::mislead(&mut parts, random),
                4 => draw_rivals(&mut parts, random),
                _ => {}
            }
            if within(&parts, work) {
                return parts;
            }
        }
    }
}

/// Whether the bundle's bytes fit and its check stays within the work.
pub fn within(parts: &Parts, work: usize) -> bool {
    let hierarchy = Hierarchy::of(parts);
    let mut sum = 0;
    for signature in &parts.signatures {
        let places = parts.functions[signature.function as usize] as usize;
        let tuples: usize =
            signature.arguments[..places].iter().map(|&class| hierarchy.concrete_under(class).count()).product();
        sum += tuples * (1 + parts.methods.len());
    }
    let code: usize = parts.methods.iter().map(|method| 12 + 2 * method.body.len()).sum();
    let parents: usize = parts.classes.iter().map(|class| 6 + class.parents.len()).sum();
    sum <= work && code + parents + 5 * parts.signatures.len() + 200 <= 65_535
}

fn drawn(random: &mut Random, crowded: bool) -> Parts {
    let mut parts = Parts::default();
    if crowded {
        let count = random.within(20, 128);
        alike::draw_classes(&mut parts, random, count);
    } else {
        draw_classes(&mut parts, random);
    }
    let functions = match random.below(20) {
        _ if crowded => random.within(1, 2),
        0 => 0,
        1 => random.within(6, 64),
        _ => random.within(1, 5),
    };
    for _ in 0..functions {
        parts.function(random.of(&[0, 1, 1, 2, 2, 2, 3, 3]));
    }
    if functions == 0 {
        return parts;
    }
    let signatures = match random.below(20) {
        0 => 0,
        1 => random.within(20, 256),
        _ => random.within(1, 2 * functions.min(6)),
    };
    for _ in 0..signatures {
        if !parts.signatures.is_empty() && random.once_in(3) {
            alike::add_related_signature(&mut parts, random);
            continue;
        }
        let function = random.below(functions) as u8;
        let mut arguments = places(&parts, random, function);
        if crowded {
            arguments = arguments.map(|class| first_parent(&parts, class));
        }
        let result = general(&parts, random);
        parts.signature(function, arguments, result);
    }
    let methods = match random.below(40) {
        0 => 0,
        1 => random.within(60, 512),
        _ => random.within(1, 4 * functions.min(8)),
    };
    for _ in 0..methods {
        draw_method(&mut parts, random);
    }
    for _ in 0..random.of(&[0, 0, 1, 4]) {
        alike::declare_apart(&mut parts, random);
    }
    parts
}

fn draw_classes(parts: &mut Parts, random: &mut Random) {
    let count = match random.below(20) {
        0..=7 => random.within(1, 6),
        8..=16 => random.within(3, 14),
        17..=18 => random.within(10, 40),
        _ => random.within(80, 128),
    };
    if random.once_in(4) {
        return alike::draw_classes(parts, random, count);
    }
    let shape = random.below(6);
    let abstracts = random.of(&[0, 1, 2, 3, 6]);
    for number in 0..count {
        let concrete = random.below(7) >= abstracts;
        let mut parents: Vec<u8> = Vec::new();
        if number > 0 {
            let several = match shape {
                0 => 1,
                1 => 2,
                2 => random.within(1, 3),
                3 => random.of(&[1, 1, 1, 2]),
                4 => random.within(1, number.min(6)),
                _ => 1,
            };
            for _ in 0..several {
                let parent = match shape {
                    // A chain with a few branches.
                    5 => number - 1 - random.below(2).min(number - 1),
                    // Diamonds: parents near by.
                    1 => number - 1 - random.below(number.min(3)),
                    _ => random.below(number),
                };
                parents.push(parent as u8);
            }
            if random.once_in(200) {
                parents = (0..number as u8).collect();
            }
            parents.sort_unstable();
            parents.dedup();
        }
        parts.class(concrete, &parents);
    }
}

/// A class, low ones more often, since more classes are under them.
fn general(parts: &Parts, random: &mut Random) -> u8 {
    let count = parts.classes.len();
    random.below(random.clone().below(count) + 1) as u8
}

/// The lowest parent of a class; of class 0 itself.
fn first_parent(parts: &Parts, class: u8) -> u8 {
    parts.classes[class as usize].parents.first().copied().unwrap_or(0)
}

/// A general class at each used place.
fn places(parts: &Parts, random: &mut Random, function: u8) -> [u8; 3] {
    let mut triple = [0; 3];
    for class in &mut triple[..parts.functions[function as usize] as usize] {
        *class = general(parts, random);
    }
    triple
}

/// Adds a method, unless it would be a twin.
fn draw_method(parts: &mut Parts, random: &mut Random) {
    let function = random.below(parts.functions.len()) as u8;
    let mut specialisers = places(parts, random, function);
    let of_function: Vec<usize> =
        (0..parts.signatures.len()).filter(|&s| parts.signatures[s].function == function).collect();
    let mut result = general(parts, random);
    if !of_function.is_empty() && random.once_in(2) {
        let signature = &parts.signatures[random.of(&of_function)];
        if random.once_in(2) {
            specialisers = signature.arguments;
        }
        result = signature.result;
    }
    let mut declared = specialisers;
    let places = parts.functions[function as usize] as usize;
    for class in &mut declared[..places] {
        match random.below(12) {
            0 => *class = 0,
            1 => *class = general(parts, random),
            2 => *class = first_parent(parts, *class),
            _ => {}
        }
    }
    let body = body(parts, random, function, result);
    add_method(parts, Method { function, specialisers, declared, result, body });
}

/// Adds methods that all apply to one tuple, which most often a signature covers: rivals and beaten ones, in any order.
fn draw_rivals(parts: &mut Parts, random: &mut Random) {
    if parts.signatures.is_empty() {
        return;
    }
    let hierarchy = Hierarchy::of(parts);
    let of = parts.signatures[random.below(parts.signatures.len())].clone();
    let tuple = of.arguments.map(|top| fitting(parts, random, top));
    for _ in 0..random.within(3, 12) {
        let mut specialisers = [0; 3];
        for place in 0..parts.functions[of.function as usize] as usize {
            let above: Vec<u8> = hierarchy.classes().filter(|&class| hierarchy.is_under(tuple[place], class)).collect();
            specialisers[place] = random.of(&above);
        }
        let body = body(parts, random, of.function, of.result);
        let declared = specialisers;
        add_method(parts, Method { function: of.function, specialisers, declared, result: of.result, body });
    }
}

/// Adds a method where there is room for one and it has no twin; says whether it did.
pub fn add_method(parts: &mut Parts, method: Method) -> bool {
    let twin = parts
        .methods
        .iter()
        .any(|other| other.function == method.function && other.specialisers == method.specialisers);
    if twin || parts.methods.len() == 512 {
        return false;
    }
    parts.methods.push(method);
    true
}

/// A body: NEW of a fitting class, an expression of any depth, or instructions without regard to the stack.
fn body(parts: &Parts, random: &mut Random, function: u8, result: u8) -> Vec<[u8; 2]> {
    let mut body = Vec::new();
    match random.below(10) {
        0..=3 => body.push([NEW, fitting(parts, random, result)]),
        4..=8 => {
            let budget = random.of(&[2, 5, 10, 20, 64]);
            expression(parts, random, function, result, budget, &mut body);
        }
        _ => {
            for _ in 0..random.within(1, 12) {
                let instruction = leaf(parts, random, function, result);
                body.push(if random.once_in(3) {
                    [SEND, random.below(parts.functions.len()) as u8]
                } else {
                    instruction
                });
            }
        }
    }
    body.truncate(64);
    body
}

/// A concrete class under another, or any class where there is none.
fn fitting(parts: &Parts, random: &mut Random, result: u8) -> u8 {
    let fit: Vec<u8> = Hierarchy::of(parts).concrete_under(result).collect();
    if fit.is_empty() || random.once_in(60) {
        return random.below(parts.classes.len()) as u8;
    }
    random.of(&fit)
}

/// An instruction that takes nothing off the stack: ARG, NEW or RESEND. A method without arguments overrides none.
fn leaf(parts: &Parts, random: &mut Random, function: u8, result: u8) -> [u8; 2] {
    let arguments = parts.functions[function as usize] as usize;
    if random.once_in(if arguments > 0 { 6 } else { 100 }) {
        return [RESEND, 0];
    }
    if arguments > 0 && random.once_in(2) {
        return [ARG, random.below(arguments) as u8];
    }
    [NEW, fitting(parts, random, result)]
}

/// Instructions that leave one value: a send of values that fit a signature, or one that takes none.
fn expression(parts: &Parts, random: &mut Random, function: u8, result: u8, budget: usize, body: &mut Vec<[u8; 2]>) {
    if budget < 2 || parts.signatures.is_empty() || random.once_in(6) {
        body.push(leaf(parts, random, function, result));
        return;
    }
    let signature = &parts.signatures[random.below(parts.signatures.len())];
    let places = parts.functions[signature.function as usize] as usize;
    for &class in &signature.arguments[..places] {
        expression(parts, random, function, class, (budget - 1) / places, body);
    }
    body.push([SEND, signature.function]);
}

/// Repairs what the check finds, at most `times` times. False where the work would become too much.
fn repair(parts: &mut Parts, random: &mut Random, times: usize, work: usize) -> bool {
    let mut scratch = [0; fast::SCRATCH];
    for _ in 0..times {
        let mut v = [0; 8];
        let number = fast::check(&parts.bytes(), &mut scratch, &mut v);
        let v = v.map(|value| value as usize);
        match number {
            10 | 11 => repair_lookup(parts, random, number, v),
            12 => alike::repair_declared(parts, random, v[5], [v[2], v[3], v[4]]),
            13 => repair_result(parts, random, v),
            14..=17 => repair_body(parts, random, v[0]),
            25..=27 => repair_resend(parts, random, number, v[0]),
            _ => return true,
        }
        if !within(parts, work) {
            return false;
        }
    }
    true
}

/// Adds a method for the tuple, or for all that the signature covers; or takes a rival or the signature away.
fn repair_lookup(parts: &mut Parts, random: &mut Random, number: u8, v: [usize; 8]) {
    let [signature, function, a, b, c, ..] = v;
    let tuple = [a as u8, b as u8, c as u8];
    if number == 11 && random.once_in(3) {
        parts.methods.remove(v[5 + random.below(2)]);
        return;
    }
    let of = parts.signatures[signature].clone();
    let specialisers = if number == 10 && random.below(3) > 0 { of.arguments } else { tuple };
    let body = body(parts, random, of.function, of.result);
    let method = Method { function: function as u8, specialisers, declared: specialisers, result: of.result, body };
    if !add_method(parts, method) {
        parts.signatures.remove(signature);
    }
}

fn repair_result(parts: &mut Parts, random: &mut Random, v: [usize; 8]) {
    let signature = &mut parts.signatures[v[0]];
    if random.once_in(8) {
        signature.result = 0;
        return;
    }
    let result = signature.result;
    parts.methods[v[5]].result = result;
    parts.methods[v[5]].body = vec![[NEW, fitting(parts, random, result)]];
}

/// Gives the method another body, a result that fits, or the class that it needs.
fn repair_body(parts: &mut Parts, random: &mut Random, method: usize) {
    let Method { function, result, .. } = parts.methods[method];
    match random.below(8) {
        0..=4 => parts.methods[method].body = body(parts, random, function, result),
        5..=6 => parts.methods[method].body = vec![[NEW, fitting(parts, random, result)]],
        _ => parts.classes[result as usize].concrete = true,
    }
}

/// Adds a method that the resending one overrides, lets each that it may resend to declare its specialisers, or gives it another
/// body.
fn repair_resend(parts: &mut Parts, random: &mut Random, number: u8, method: usize) {
    let Method { function, specialisers, result, .. } = parts.methods[method];
    match number {
        25 if !random.once_in(4) => {
            let hierarchy = Hierarchy::of(parts);
            let above = specialisers.map(|lower| {
                let above: Vec<u8> = hierarchy.classes().filter(|&class| hierarchy.is_under(lower, class)).collect();
                random.of(&above)
            });
            let body = body(parts, random, function, result);
            let added = Method { function, specialisers: above, declared: above, result, body };
            if !add_method(parts, added) {
                repair_body(parts, random, method);
            }
        }
        27 if !random.once_in(4) => {
            for other in parts.methods.iter_mut().filter(|other| other.function == function) {
                other.declared = other.specialisers;
            }
        }
        _ => repair_body(parts, random, method),
    }
}

/// Changes one thing of a bundle, which it keeps lawful.
fn spoil(parts: &mut Parts, random: &mut Random) {
    let classes = parts.classes.len();
    let class = random.below(classes) as u8;
    match random.below(8) {
        0 => parts.classes[class as usize].concrete ^= true,
        1 if !parts.signatures.is_empty() => {
            let at = random.below(parts.signatures.len());
            parts.signatures[at].result = class;
        }
        2 if !parts.signatures.is_empty() => {
            let at = random.below(parts.signatures.len());
            let function = parts.signatures[at].function;
            parts.signatures[at].arguments = places(parts, random, function);
        }
        _ if parts.methods.is_empty() => {}
        3 => {
            parts.methods.remove(random.below(parts.methods.len()));
        }
        4 => {
            let at = random.below(parts.methods.len());
            parts.methods[at].result = class;
        }
        5 => {
            let at = random.below(parts.methods.len());
            let function = parts.methods[at].function;
            parts.methods[at].declared = places(parts, random, function);
        }
        6 => {
            let at = random.below(parts.methods.len());
            let (function, result) = (parts.methods[at].function, parts.methods[at].result);
            let place = random.below(parts.methods[at].body.len());
            parts.methods[at].body[place] = leaf(parts, random, function, result);
        }
        _ => {
            let at = random.below(parts.methods.len());
            let body = &mut parts.methods[at].body;
            if body.len() > 1 {
                body.remove(random.below(body.len()));
            }
        }
    }
}
