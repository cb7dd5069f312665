//! The bundles that are measured.

use builder::{bucket, tree, widest_chart, Parts, Random, ARG, NEW, RESEND, SEND};

/// As many records as the limits allow, and bodies to fill 65,535 bytes. It is accepted. A function has arguments and
/// results in one of the eight parts that depth 3 divides the tree into, and its bodies send functions of that part.
pub fn largest() -> Vec<u8> {
    let mut parts = tree();
    for function in 0..64 {
        parts.function(1 + function % 3);
    }
    let at_used = |function: u8, class: u8| [0, 1, 2].map(|place| if place <= function % 3 { class } else { 0 });
    let top = |function: u8| 7 + function % 8;
    for number in 0..=255u8 {
        let function = number % 64;
        parts.signature(function, at_used(function, top(function + number / 64)), top(function));
    }
    for function in 0..64 {
        let top = top(function);
        parts.method(function, [0; 3], top, &[[NEW, top]]);
        for class in [top, 2 * top + 1, 2 * top + 2].into_iter().chain(4 * top + 3..4 * top + 7) {
            parts.method(function, at_used(function, class), top, &[[ARG, 0]]);
        }
    }
    let free = (65_535 - parts.bytes().len()) / 2;
    let methods = parts.methods.len();
    for (number, method) in parts.methods.iter_mut().enumerate() {
        let length = 1 + free / methods + (number < free % methods) as usize;
        let value = method.body[0];
        // Functions of the same part in turn; those of one argument fill what is left.
        for function in (method.function % 8..64).step_by(8).cycle() {
            let others = function as usize % 3;
            if method.body.len() + others < length {
                method.body.extend(std::iter::repeat_n(value, others));
                method.body.push([SEND, function]);
            }
            if method.body.len() == length {
                break;
            }
        }
    }
    let bytes = parts.bytes();
    assert_eq!(bytes.len(), 65_535);
    bytes
}

/// The largest bundle with one fault, at its end: the last byte, which is the operand of the last method's last instruction, is
/// too high for any operation.
pub fn largest_broken() -> Vec<u8> {
    let mut bytes = largest();
    bytes[65_534] = 255;
    bytes
}

/// 128 classes with three parents each, and nothing else.
pub fn classes() -> Vec<u8> {
    let mut random = Random::new(1);
    let mut parts = Parts::default();
    parts.class(true, &[]);
    for number in 1..128 {
        let mut parents: Vec<u8> = (0..3).map(|_| random.below(number) as u8).collect();
        parents.sort_unstable();
        parents.dedup();
        parts.class(true, &parents);
    }
    parts.bytes()
}

/// 128 concrete classes, all but class 0 straight under it.
fn flat() -> Parts {
    let mut parts = Parts::default();
    parts.class(true, &[]);
    for _ in 1..128 {
        parts.class(true, &[0]);
    }
    parts
}

/// Two methods that both apply to the last tuple alone, where neither leads.
fn break_last(parts: &mut Parts, function: u8) {
    parts.method(function, [127, 127, 0], 0, &[[NEW, 0]]);
    parts.method(function, [127, 0, 127], 0, &[[NEW, 0]]);
}

/// A signature over 2,097,152 tuples, and five methods, or seven where the last tuple is broken.
pub fn few_methods(broken: bool) -> Vec<u8> {
    let mut parts = flat();
    let function = parts.function(3);
    parts.signature(function, [0; 3], 0);
    for specialisers in [[0, 0, 0], [1, 0, 0], [1, 1, 0], [1, 1, 1], [2, 0, 0]] {
        parts.method(function, specialisers, 0, &[[NEW, 0]]);
    }
    if broken {
        break_last(&mut parts, function);
    }
    parts.bytes()
}

/// The same signature and 512 methods, of which at most four apply to a tuple.
pub fn many_methods(broken: bool) -> Vec<u8> {
    let mut parts = flat();
    let function = parts.function(3);
    parts.signature(function, [0; 3], 0);
    if broken {
        break_last(&mut parts, function);
    }
    parts.method(function, [0; 3], 0, &[[NEW, 0]]);
    'full: for shape in 0..5 {
        // The last class is left to the two methods of the broken tuple.
        for i in 1..127 {
            let next = i % 126 + 1;
            let specialisers = match shape {
                0 => [i, 0, 0],
                1 => [i, i, 0],
                2 => [i, i, i],
                3 => [i, next, 0],
                _ => [i, next, i],
            };
            parts.method(function, specialisers, 0, &[[NEW, 0]]);
            if parts.methods.len() == 512 {
                break 'full;
            }
        }
    }
    assert_eq!(parts.methods.len(), 512);
    parts.bytes()
}

/// 127 concrete classes that 512 methods tell apart at each of three places, although every tuple finds the first of them: each of
/// the others has at some place the one abstract class, which no class is under but itself.
pub fn found_everywhere() -> Vec<u8> {
    let mut parts = flat();
    parts.classes[127].concrete = false;
    let function = parts.function(3);
    parts.method(function, [0; 3], 0, &[[NEW, 0]]);
    for number in 0..511u16 {
        let i = (number % 126 + 1) as u8;
        let specialisers = match number / 126 {
            0 => [i, 0, 127],
            1 => [0, i, 127],
            2 => [0, 127, i],
            3 => [i, i, 127],
            _ => [i, i + 1, 127],
        };
        parts.method(function, specialisers, 0, &[[NEW, 0]]);
    }
    parts.bytes()
}

/// 512 methods that the library puts into one bucket, so that each is compared with all before it. They are of one function, so
/// that no comparison ends there.
pub fn one_bucket() -> Vec<u8> {
    let mut parts = flat();
    let function = parts.function(3);
    let triples = (0..128).flat_map(|a| (0..128).flat_map(move |b| (0..128).map(move |c| [a, b, c])));
    for [a, b, c] in triples.filter(|&[a, b, c]| bucket([function, a, b, c]) == 0).take(512) {
        parts.method(function, [a, b, c], 0, &[[NEW, 0]]);
    }
    assert_eq!(parts.methods.len(), 512);
    parts.bytes()
}

/// 128 concrete classes, each but class 0 under the one before.
fn chained() -> Parts {
    let mut parts = Parts::default();
    parts.class(true, &[]);
    for number in 1..128 {
        parts.class(true, &[number - 1]);
    }
    parts
}

/// The same signature, so many times, over a chain of 128 classes, and 382 methods, of which most apply to most tuples.
pub fn chain(times: usize) -> Vec<u8> {
    let mut parts = chained();
    let function = parts.function(3);
    for _ in 0..times {
        parts.signature(function, [0; 3], 0);
    }
    add_line(&mut parts, function, &[[NEW, 0]]);
    parts.bytes()
}

/// Adds a line of 382 methods over a chain of 128 classes, each more specific than the one before. All but the first have the body.
fn add_line(parts: &mut Parts, function: u8, body: &[[u8; 2]]) {
    let mut specialisers = [0; 3];
    parts.method(function, specialisers, 0, &[[NEW, 0]]);
    for number in 0..381 {
        specialisers[number % 3] += 1;
        parts.method(function, specialisers, 0, body);
    }
}

/// The line of methods over a chain of classes, in which each but the first resends so many times. Two values at a time become one by
/// a send. It is accepted.
pub fn line_of_resends(times: usize) -> Vec<u8> {
    let mut parts = chained();
    let function = parts.function(3);
    let first_of_two = parts.function(2);
    parts.signature(first_of_two, [0; 3], 0);
    let mut body = vec![[RESEND, 0]];
    for _ in 1..times {
        body.extend([[RESEND, 0], [SEND, first_of_two]]);
    }
    add_line(&mut parts, function, &body);
    parts.method(first_of_two, [0; 3], 0, &[[ARG, 0]]);
    parts.bytes()
}

/// 512 methods that all apply to the last tuple of a chain of 128 classes. Two in the middle of the list are rivals. Each of the
/// others is beaten by these two alone, so that a search for rivals, or for what beats a method, passes half of the list from
/// either end.
pub fn rivals_in_the_middle() -> Vec<u8> {
    let mut parts = chained();
    let function = parts.function(3);
    // Of two triples with the same sum neither is at least as specific as the other.
    let mut specialisers: Vec<[u8; 3]> =
        (0..32).flat_map(|a| (0..32 - a).map(move |b| [a, b, 31 - a - b])).take(510).collect();
    specialisers.splice(255..255, [[127, 126, 126], [126, 127, 126]]);
    for specialisers in specialisers {
        parts.method(function, specialisers, 0, &[[NEW, 0]]);
    }
    parts.bytes()
}

/// Adds a method, and takes it away again where the bundle is refused with it: a twin, or a tuple for which no method leads.
fn method_if_accepted(parts: &mut Parts, function: u8, specialisers: [u8; 3], body: &[[u8; 2]]) {
    parts.method(function, specialisers, 0, body);
    if fast::check(&parts.bytes(), &mut [0; fast::SCRATCH], &mut [0; 8]) != 0 {
        parts.methods.pop();
    }
}

/// Four functions of three arguments over the tree of 128 classes, with 60 methods. It is accepted.
pub fn four_functions() -> Vec<u8> {
    let mut random = Random::new(6);
    let mut parts = tree();
    for _ in 0..4 {
        let function = parts.function(3);
        parts.signature(function, [0; 3], 0);
        parts.method(function, [0; 3], 0, &[[NEW, 0]]);
    }
    while parts.methods.len() < 60 {
        let function = (parts.methods.len() % 4) as u8;
        let specialisers = [0; 3].map(|_| random.of(&[0, 1]) * random.below(128) as u8);
        method_if_accepted(&mut parts, function, specialisers, &[[ARG, 0]]);
    }
    parts.bytes()
}

/// A department: 40 classes, 10 functions, 60 signatures and 120 methods, with bodies that send. It is accepted.
pub fn department() -> Vec<u8> {
    let mut random = Random::new(40);
    let mut parts = Parts::default();
    parts.class(false, &[]);
    for number in 1..40 {
        let mut parents = vec![random.below(number) as u8];
        if number > 30 {
            parents.push(random.below(number) as u8);
        }
        parents.sort_unstable();
        parents.dedup();
        parts.class(number > 8, &parents);
    }
    for arguments in [1, 1, 1, 2, 2, 2, 2, 2, 3, 3] {
        let function = parts.function(arguments);
        parts.signature(function, [0; 3], 0);
        parts.method(function, [0; 3], 0, &[[NEW, 39]]);
    }
    while parts.methods.len() < 120 {
        let function = (parts.methods.len() % 10) as u8;
        let used = parts.functions[function as usize] as usize;
        let mut specialisers = [0; 3];
        for class in &mut specialisers[..used] {
            *class = random.of(&[0, 0, 1, 1]) * random.below(40) as u8;
        }
        // The function before is sent the first argument as often as it has arguments.
        let mut body = vec![[ARG, 0]];
        if function > 0 {
            body.resize(parts.functions[function as usize - 1] as usize, [ARG, 0]);
            body.push([SEND, function - 1]);
        }
        method_if_accepted(&mut parts, function, specialisers, &body);
    }
    while parts.signatures.len() < 60 {
        let function = (parts.signatures.len() % 10) as u8;
        let used = parts.functions[function as usize] as usize;
        let mut arguments = [0; 3];
        for class in &mut arguments[..used] {
            *class = random.below(20) as u8;
        }
        parts.signature(function, arguments, 0);
    }
    parts.bytes()
}

/// The classes, functions and methods for which signatures were found to take longest. All classes but class 0 are concrete and
/// under class 1. Eight methods of the first function apply to each of their tuples, and one leads. Each of the other seven
/// declares a class of its own, so that their declared classes tell all classes apart at every place; they find no tuple, so
/// nothing is broken by it. Heavier methods of another function come before the eight in the order, so that all words of a
/// set are gone through. A ninth method leads every set until the last place is filled, and applies there to class 127 alone, so
/// that a leader has to be looked for with each tuple. Class 127 is under every class.
fn told_apart() -> Parts {
    let mut parts = Parts::default();
    parts.class(false, &[]);
    // A class for each set of the seven but one, under the classes of the sets that lack one element of it.
    let mut of_set = [None; 128];
    for set in (0..128usize).filter(|&set| set != 126) {
        let less = (0..7).filter(|bit| set >> bit & 1 == 1).filter_map(|bit| of_set[set - (1 << bit)]);
        let mut parents: Vec<u8> = if set == 0 { vec![0] } else { less.collect() };
        parents.sort_unstable();
        of_set[set] = Some(parts.class(true, &parents));
    }
    let function = parts.function(3);
    let other = parts.function(3);
    let body = [[NEW, 127]];
    for number in 0..8 {
        parts.method(function, [number / 4, number / 2 % 2, number % 2], 127, &body);
    }
    for number in 0..7 {
        parts.methods[number].declared = [of_set[1 << number].expect("a set of one element has a class"); 3];
    }
    parts.method(function, [1, 1, 127], 127, &body);
    for number in 0..503 {
        parts.method(other, [127, (number / 128) as u8, (number % 128) as u8], 127, &body);
    }
    parts
}

/// The slowest bundle found with so many signatures, up to 256: each covers all tuples, and none implies a later one.
pub fn slowest(signatures: usize) -> Vec<u8> {
    let mut parts = told_apart();
    for number in 0..signatures {
        parts.signature(0, [1 - (number % 2) as u8, 1, 1], (number / 2) as u8);
    }
    parts.bytes()
}

/// As slow with 256 signatures, and the last tuple of the last one is broken: the method that it finds has a result class that the
/// other signatures' result classes are above, and the last one's is not.
pub fn slowest_broken() -> Vec<u8> {
    let mut parts = told_apart();
    for number in 0..255 {
        let arguments = [[1, 1, 1], [0, 1, 1], [0, 0, 1], [0, 0, 0]][number % 4];
        parts.signature(0, arguments, (number / 4) as u8);
    }
    parts.signature(0, [0; 3], 127);
    parts.methods.pop();
    parts.method(0, [127; 3], 64, &[[NEW, 127]]);
    parts.bytes()
}

/// A function of two arguments over the tree of 128 classes, with 512 methods, of which up to 25 apply to a tuple.
pub fn chart() -> Vec<u8> {
    widest_chart().bytes()
}

/// The sample of that name.
pub fn chart_3() -> Vec<u8> {
    builder::chart_3().bytes()
}

/// A body that sends the next function over and over.
fn sends_next(function: u8) -> Vec<[u8; 2]> {
    let mut body = vec![[ARG, 0]];
    for _ in 0..31 {
        body.extend([[ARG, 1], [SEND, function + 1]]);
    }
    body
}

/// A run of more than ten million steps: five functions, each of which sends the next one over and over, and a last one
/// whose three methods hand the classes round.
pub fn long_run() -> Vec<u8> {
    let mut parts = Parts::default();
    parts.class(false, &[]);
    for _ in 0..3 {
        parts.class(true, &[0]);
    }
    for function in 0..6 {
        parts.function(2);
        parts.signature(function, [0; 3], 0);
    }
    for function in 0..5 {
        let body = sends_next(function);
        parts.method(function, [0; 3], 0, &body);
        for class in 1..4 {
            parts.method(function, [class, 0, 0], 0, &body);
            parts.method(function, [class, class, 0], 0, &body);
        }
    }
    parts.method(5, [1, 0, 0], 0, &[[NEW, 2]]);
    parts.method(5, [2, 0, 0], 0, &[[NEW, 3]]);
    parts.method(5, [3, 0, 0], 0, &[[NEW, 1]]);
    parts.bytes()
}

/// A special method that hands on to a general one, sent over and over in a run of more than ten million steps. It resends; or it
/// sends another function, which has no arguments, so that no step more is made for these.
pub fn handing_on(resends: bool) -> Vec<u8> {
    let mut parts = Parts::default();
    parts.class(false, &[]);
    for _ in 1..4 {
        parts.class(true, &[0]);
    }
    for function in 0..6 {
        parts.function(2);
        parts.signature(function, [0; 3], 0);
        if function < 5 {
            parts.method(function, [0; 3], 0, &sends_next(function));
        }
    }
    let other = parts.function(0);
    parts.signature(other, [0; 3], 0);
    let general = [[NEW, 1]];
    parts.method(5, [0; 3], 0, &general);
    parts.method(other, [0; 3], 0, &general);
    parts.method(5, [1, 2, 0], 0, &[if resends { [RESEND, 0] } else { [SEND, other] }]);
    parts.bytes()
}

/// As long a run of seven methods, one to a function, in a bundle that has so many; the others are of a function that is
/// never sent.
pub fn run_among(methods: usize) -> Vec<u8> {
    let mut parts = Parts::default();
    parts.class(true, &[]);
    for _ in 1..32 {
        parts.class(true, &[0]);
    }
    for function in 0..7 {
        parts.function(2);
        parts.signature(function, [0; 3], 0);
        let body = if function < 6 { sends_next(function) } else { vec![[ARG, 0]] };
        parts.method(function, [0; 3], 0, &body);
    }
    let other = parts.function(2);
    for number in 0..methods - parts.methods.len() {
        parts.method(other, [(number / 32) as u8, (number % 32) as u8, 0], 0, &[[ARG, 0]]);
    }
    parts.bytes()
}
