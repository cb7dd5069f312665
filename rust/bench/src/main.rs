//! Measures the library and its peers on the same bundles and prints a table. A time is processor time of one call, the
//! median of several repetitions; a ratio is the library's time by the peer's. `bench WORD` measures only the cases whose
//! names have the word.

mod bundles;
mod clock;

use curiumtoad::raw;
use std::hint::black_box;
use std::time::Duration;

type Reply = (u8, [u64; 8]);

/// One line of the table: the same calls by the library and by the peers that have them.
struct Case {
    name: &'static str,
    library: Call,
    plain: Option<Call>,
    fast: Option<Call>,
    /// The number and first value that every call has to give.
    expected: (u8, Option<u64>),
}

type Call = Box<dyn FnMut() -> Reply>;

fn main() {
    println!("| case | library | plain | fast | library / plain | library / fast |");
    println!("|---|---:|---:|---:|---:|---:|");
    let word = std::env::args().nth(1).unwrap_or_default();
    for mut case in cases().into_iter().filter(|case| case.name.contains(&word)) {
        line(&mut case);
    }
}

fn cases() -> Vec<Case> {
    vec![
        open_case("open the largest bundle, 65,535 bytes", bundles::largest(), (0, 128)),
        open_case("open the largest bundle, last operand too high", bundles::largest_broken(), (9, 511)),
        open_case("open 512 methods of one function", bundles::many_methods(false), (0, 128)),
        open_case("open 512 methods of one function, all in one bucket", bundles::one_bucket(), (0, 128)),
        ancestry_case("ancestry: 128 classes of three parents", bundles::classes(), 127),
        ancestry_case("ancestry on chart-3", bundles::chart_3(), 7),
        lookup_case("lookup among 512 methods", bundles::many_methods(false), next, 0),
        lookup_case("lookup among 512 methods that all apply, ambiguous", bundles::rivals_in_the_middle(), last, 11),
        repeated(LINES, chart_case("chart of 128 classes, 512 methods: all 129 lines", bundles::chart())),
        repeated(LINES, ancestry_case("ancestry on the bundle of that chart, 129 times", bundles::chart(), 127)),
        rough_case("rough answer on chart-3, last of 4 tuples fails", bundles::chart_3(), [1, 3, 0], 1),
        rough_case("rough answer, 2,048,383 tuples, 512 methods, one", bundles::found_everywhere(), [0; 3], 0),
        rough_case("rough answer, 2,097,152 tuples, 512 methods, several", bundles::many_methods(false), [0; 3], 2),
        rough_case(
            "rough answer, 2,097,152 tuples, 512 methods, last one fails",
            bundles::many_methods(true),
            [0; 3],
            1,
        ),
        check_case("check 2,097,152 tuples, 5 methods, accepted", bundles::few_methods(false), 0),
        check_case("check 2,097,152 tuples, 7 methods, last one broken", bundles::few_methods(true), 11),
        check_case("check 2,097,152 tuples, 512 methods, accepted", bundles::many_methods(false), 0),
        check_case("check 2,097,152 tuples, 512 methods, last one broken", bundles::many_methods(true), 11),
        without_plain(check_case("check 2,097,152 tuples, 382 methods in a line, accepted", bundles::chain(1), 0)),
        without_plain(check_case("check the same signature 256 times, accepted", bundles::chain(256), 0)),
        check_case("check four functions, a tree of 128 classes, 60 methods, accepted", bundles::four_functions(), 0),
        check_case("check a department: 40, 10, 60, 120 records", bundles::department(), 0),
        check_case("check the largest bundle, accepted", bundles::largest(), 0),
        without_plain(check_case("check the slowest signature found, accepted", bundles::slowest(1), 0)),
        without_plain(check_case("check the slowest bundle found, 256 signatures, accepted", bundles::slowest(256), 0)),
        without_plain(check_case("check the slowest bundle found, last tuple broken", bundles::slowest_broken(), 13)),
        check_case("check 382 methods in a line, each of which resends, accepted", bundles::line_of_resends(1), 0),
        check_case("check the same, each resends 32 times, accepted", bundles::line_of_resends(32), 0),
        run_case("run of 10,000,000 steps", bundles::long_run()),
        run_case("run of 10,000,000 steps, one method to a function, 7 methods", bundles::run_among(7)),
        run_case("run of 10,000,000 steps, the same among 512 methods", bundles::run_among(512)),
        run_case("run of 10,000,000 steps, a special method resends", bundles::handing_on(true)),
        run_case("run of 10,000,000 steps, it sends another function instead", bundles::handing_on(false)),
    ]
}

fn open_case(name: &'static str, bundle: Vec<u8>, (number, first): (u8, u64)) -> Case {
    let [a, b, c] = [bundle.clone(), bundle.clone(), bundle];
    Case {
        name,
        library: Box::new(move || by_library(|values| raw::open(black_box(&a), values))),
        plain: Some(Box::new(move || by_plain(plain::open(black_box(&b))))),
        fast: Some(Box::new(move || by_library(|values| fast::open(black_box(&c), values)))),
        expected: (number, Some(first)),
    }
}

/// How a class stands to class 0: every other is a proper heir of it.
fn ancestry_case(name: &'static str, bundle: Vec<u8>, class: u64) -> Case {
    let [a, b, c] = [bundle.clone(), bundle.clone(), bundle];
    let [mut scratch_1, mut scratch_2, mut scratch_3] = [[0; plain::SCRATCH]; 3];
    Case {
        name,
        library: Box::new(move || by_library(|values| raw::ancestry(black_box(&a), &mut scratch_1, class, 0, values))),
        plain: Some(Box::new(move || by_plain(plain::ancestry(black_box(&b), &mut scratch_2, class, 0)))),
        fast: Some(Box::new(move || {
            by_library(|values| fast::ancestry(black_box(&c), &mut scratch_3, class, 0, values))
        })),
        expected: (0, Some(2)),
    }
}

/// One call is one lookup; each takes the tuple that follows the one before.
fn lookup_case(name: &'static str, bundle: Vec<u8>, next: fn([u64; 3]) -> [u64; 3], number: u8) -> Case {
    let [a, b] = [bundle.clone(), bundle];
    let (mut scratch_1, mut scratch_2) = ([0; plain::SCRATCH], [0; plain::SCRATCH]);
    let (mut tuple_1, mut tuple_2) = ([0; 3], [0; 3]);
    Case {
        name,
        library: Box::new(move || {
            tuple_1 = next(tuple_1);
            by_library(|values| raw::lookup(black_box(&a), &mut scratch_1, 0, tuple_1, values))
        }),
        plain: Some(Box::new(move || {
            tuple_2 = next(tuple_2);
            by_plain(plain::lookup(black_box(&b), &mut scratch_2, 0, tuple_2))
        })),
        fast: None,
        expected: (number, None),
    }
}

/// A tuple that is another from call to call.
fn next([a, b, c]: [u64; 3]) -> [u64; 3] {
    [(a + 1) % 128, (b + 1 + a / 127) % 128, (c + 3) % 128]
}

/// The last tuple, over and over.
fn last(_: [u64; 3]) -> [u64; 3] {
    [127; 3]
}

/// A rough call of function 0, and what it has to answer.
fn rough_case(name: &'static str, bundle: Vec<u8>, uppers: [u64; 3], answer: u64) -> Case {
    let [a, b, c] = [bundle.clone(), bundle.clone(), bundle];
    let [mut scratch_1, mut scratch_2, mut scratch_3] = [[0; plain::SCRATCH]; 3];
    Case {
        name,
        library: Box::new(move || by_library(|values| raw::rough(black_box(&a), &mut scratch_1, 0, uppers, values))),
        plain: Some(Box::new(move || by_plain(plain::rough(black_box(&b), &mut scratch_2, 0, uppers)))),
        fast: Some(Box::new(move || {
            by_library(|values| fast::rough(black_box(&c), &mut scratch_3, 0, uppers, values))
        })),
        expected: (0, Some(answer)),
    }
}

/// How many lines the chart of 128 concrete classes has.
const LINES: u64 = 129;

/// One call is one line; the line changes from call to call.
fn chart_case(name: &'static str, bundle: Vec<u8>) -> Case {
    let [a, b] = [bundle.clone(), bundle];
    let (mut scratch_1, mut scratch_2) = ([0; plain::SCRATCH], [0; plain::SCRATCH]);
    let (mut text_1, mut text_2) = ([0; plain::LINE], [0; plain::LINE]);
    let (mut line_1, mut line_2) = (0, 0);
    Case {
        name,
        library: Box::new(move || {
            line_1 = (line_1 + 1) % LINES;
            by_library(|values| raw::chart(black_box(&a), &mut scratch_1, &mut text_1, 0, line_1, values))
        }),
        plain: Some(Box::new(move || {
            line_2 = (line_2 + 1) % LINES;
            by_plain(plain::chart(black_box(&b), &mut scratch_2, &mut text_2, 0, line_2))
        })),
        fast: None,
        expected: (0, Some(plain::LINE as u64)),
    }
}

/// The case with each call made so many times over.
fn repeated(count: u64, case: Case) -> Case {
    let over = |mut call: Call| -> Call {
        Box::new(move || {
            for _ in 1..count {
                black_box(call());
            }
            call()
        })
    };
    Case { library: over(case.library), plain: case.plain.map(over), fast: case.fast.map(over), ..case }
}

fn check_case(name: &'static str, bundle: Vec<u8>, number: u8) -> Case {
    let [a, b, c] = [bundle.clone(), bundle.clone(), bundle];
    let [mut scratch_1, mut scratch_2, mut scratch_3] = [[0; plain::SCRATCH]; 3];
    Case {
        name,
        library: Box::new(move || by_library(|values| raw::check(black_box(&a), &mut scratch_1, values))),
        plain: Some(Box::new(move || by_plain(plain::check(black_box(&b), &mut scratch_2)))),
        fast: Some(Box::new(move || by_library(|values| fast::check(black_box(&c), &mut scratch_3, values)))),
        expected: (number, None),
    }
}

/// Leaves `plain` out where it would take minutes or more.
fn without_plain(case: Case) -> Case {
    Case { plain: None, ..case }
}

fn run_case(name: &'static str, bundle: Vec<u8>) -> Case {
    const COUNT: u32 = 10_000_000;
    let [a, b] = [bundle.clone(), bundle];
    let (mut scratch_1, mut scratch_2) = ([0; plain::SCRATCH], [0; plain::SCRATCH]);
    let arguments = [1, 2, 0];
    Case {
        name,
        library: Box::new(move || {
            by_library(|values| raw::run(black_box(&a), &mut scratch_1, 0, arguments, COUNT, values))
        }),
        plain: Some(Box::new(move || by_plain(plain::run(black_box(&b), &mut scratch_2, 0, arguments, COUNT)))),
        fast: None,
        // Spent.
        expected: (0, Some(1)),
    }
}

fn by_library(call: impl FnOnce(&mut [u64; 8]) -> u8) -> Reply {
    let mut values = [0; 8];
    (call(&mut values), values)
}

fn by_plain(reply: plain::Reply) -> Reply {
    (reply.number, reply.values)
}

/// Holds the peers to the same answer, measures them in turns, so that what disturbs one disturbs all, and prints them.
fn line(case: &mut Case) {
    let mut peers = [Some(&mut case.library), case.plain.as_mut(), case.fast.as_mut()];
    let mut times: [Vec<Duration>; 3] = Default::default();
    let mut counts = [1; 3];
    let mut said = Vec::new();
    for (peer, call) in peers.iter_mut().enumerate() {
        if let Some(call) = call {
            let start = clock::now();
            said.push(call());
            let first = clock::now() - start;
            counts[peer] = calls_for_a_repetition(call, first);
            if first >= VERY_LONG {
                times[peer].push(first);
            }
        }
    }
    assert!(said.iter().all(|reply| *reply == said[0]), "{}: the peers differ", case.name);
    assert_eq!(said[0].0, case.expected.0, "{}", case.name);
    assert!(case.expected.1.is_none_or(|first| first == said[0].1[0]), "{}", case.name);
    for _ in 0..REPETITIONS {
        for (peer, call) in peers.iter_mut().enumerate() {
            if let Some(call) = call.as_mut().filter(|_| counts[peer] > 0) {
                times[peer].push(time(call, counts[peer]));
            }
        }
    }
    let [library, plain, fast] = times.map(median);
    let shown = |time: Option<f64>| time.map_or(String::new(), show);
    let ratio = |peer: Option<f64>| match (library, peer) {
        (Some(library), Some(peer)) => show_ratio(library / peer),
        _ => String::new(),
    };
    let (of_plain, of_fast) = (ratio(plain), ratio(fast));
    println!("| {} | {} | {} | {} | {of_plain} | {of_fast} |", case.name, shown(library), shown(plain), shown(fast));
}

const REPETITIONS: usize = 11;
/// What takes longer than this is measured once.
const VERY_LONG: Duration = Duration::from_secs(4);
/// How long a repetition takes at least.
const ENOUGH: Duration = Duration::from_millis(20);

/// How many calls make a repetition, given the time of a first one: none where that was very long.
fn calls_for_a_repetition(call: &mut Call, first: Duration) -> u32 {
    if first >= VERY_LONG {
        return 0;
    }
    let mut count = 1;
    while count < 1 << 20 && time(call, count) * count < ENOUGH {
        count *= 2;
    }
    count
}

/// The time of one call, over so many.
fn time(call: &mut Call, count: u32) -> Duration {
    let start = clock::now();
    for _ in 0..count {
        black_box(call());
    }
    (clock::now() - start) / count
}

fn median(mut times: Vec<Duration>) -> Option<f64> {
    times.sort_unstable();
    times.get(times.len() / 2).map(Duration::as_secs_f64)
}

fn show(seconds: f64) -> String {
    match seconds {
        s if s >= 1.0 => format!("{s:.2} s"),
        s if s >= 1e-3 => format!("{:.2} ms", s * 1e3),
        s => format!("{:.2} µs", s * 1e6),
    }
}

fn show_ratio(ratio: f64) -> String {
    match ratio {
        r if r >= 100.0 => format!("{r:.0}"),
        r if r >= 0.01 => format!("{r:.2}"),
        r => format!("{r:.4}"),
    }
}
