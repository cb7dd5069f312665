//! Calls, made on every implementation that has them with the same bytes in every buffer.

use crate::matrix::PAIRS;
use crate::rivals::beaten_and_rivals;
use crate::tally::Tally;
use crate::{exact, generate, opening, resends, rough};
use builder::{hex, Method, Parts, Random, RESEND};
use curiumtoad::{raw, Answer};
use std::ops::Range;

/// A call of an entry point, but for its buffers.
#[derive(Clone, Copy, Debug)]
pub enum Call {
    Open,
    Ancestry(u64, u64),
    Lookup(u64, [u64; 3]),
    Rough(u64, [u64; 3]),
    SendType(u64, [u64; 3]),
    Check,
    Witness(u64, [u64; 3]),
    Body(u64),
    Run(u64, [u64; 3], u32),
    RunAccepted(u64, [u64; 3], u32),
    /// With the length of the text's buffer.
    Listing(usize),
    /// The function, the line, and the length of its buffer.
    Chart(u64, u64, usize),
}

/// What a call may be lent: a scratch, a row, and a buffer for a text.
pub type Buffers<'a> = [&'a mut [u8]; 3];

impl Call {
    fn name(&self) -> &'static str {
        match self {
            Call::Open => "open",
            Call::Ancestry(..) => "ancestry",
            Call::Lookup(..) => "lookup",
            Call::Rough(..) => "rough",
            Call::SendType(..) => "send_type",
            Call::Check => "check",
            Call::Witness(..) => "witness",
            Call::Body(..) => "body",
            Call::Run(..) => "run",
            Call::RunAccepted(..) => "run_accepted",
            Call::Listing(..) => "listing",
            Call::Chart(..) => "chart",
        }
    }

    fn takes_scratch(&self) -> bool {
        !matches!(self, Call::Open | Call::Body(..) | Call::Listing(..))
    }

    /// How long a buffer for a text the call is lent.
    pub fn text_length(&self) -> usize {
        match *self {
            Call::Listing(length) | Call::Chart(_, _, length) => length,
            _ => 0,
        }
    }

    /// The function and the classes that the values of number 11 name.
    fn sent(&self, v: [u64; 8]) -> [u64; 4] {
        match self {
            Call::Lookup(..) | Call::Run(..) => [v[0], v[1], v[2], v[3]],
            // The signature comes first.
            _ => [v[1], v[2], v[3], v[4]],
        }
    }

    /// The call by the plain implementation.
    pub fn by_plain(&self, bundle: &[u8], [scratch, row, text]: Buffers) -> plain::Reply {
        match *self {
            Call::Open => plain::open(bundle),
            Call::Ancestry(a, b) => plain::ancestry(bundle, scratch, a, b),
            Call::Lookup(function, arguments) => plain::lookup(bundle, scratch, function, arguments),
            Call::Rough(function, uppers) => plain::rough(bundle, scratch, function, uppers),
            Call::SendType(function, arguments) => plain::send_type(bundle, scratch, row, function, arguments),
            Call::Check => plain::check(bundle, scratch),
            Call::Witness(signature, arguments) => plain::witness(bundle, scratch, signature, arguments),
            Call::Body(method) => plain::body(bundle, method),
            Call::Run(function, arguments, count) => plain::run(bundle, scratch, function, arguments, count),
            Call::RunAccepted(function, arguments, count) => {
                plain::run_accepted(bundle, scratch, function, arguments, count)
            }
            Call::Listing(_) => plain::listing(bundle, text),
            Call::Chart(function, line, _) => plain::chart(bundle, scratch, text, function, line),
        }
    }

    /// The call by the library, as numbers.
    pub fn by_library(&self, bundle: &[u8], [scratch, row, text]: Buffers, values: &mut raw::Values) -> u8 {
        match *self {
            Call::Open => raw::open(bundle, values),
            Call::Ancestry(a, b) => raw::ancestry(bundle, scratch, a, b, values),
            Call::Lookup(function, arguments) => raw::lookup(bundle, scratch, function, arguments, values),
            Call::Rough(function, uppers) => raw::rough(bundle, scratch, function, uppers, values),
            Call::SendType(function, arguments) => raw::send_type(bundle, scratch, row, function, arguments, values),
            Call::Check => raw::check(bundle, scratch, values),
            Call::Witness(signature, arguments) => raw::witness(bundle, scratch, signature, arguments, values),
            Call::Body(method) => raw::body(bundle, method, values),
            Call::Run(function, arguments, count) => raw::run(bundle, scratch, function, arguments, count, values),
            Call::RunAccepted(function, arguments, count) => {
                raw::run_accepted(bundle, scratch, function, arguments, count, values)
            }
            Call::Listing(_) => raw::listing(bundle, text, values),
            Call::Chart(function, line, _) => raw::chart(bundle, scratch, text, function, line, values),
        }
    }

    /// The call by `fast`, where it has that call.
    pub fn by_fast(&self, bundle: &[u8], [scratch, ..]: Buffers, values: &mut raw::Values) -> Option<u8> {
        match *self {
            Call::Open => Some(fast::open(bundle, values)),
            Call::Ancestry(a, b) => Some(fast::ancestry(bundle, scratch, a, b, values)),
            Call::Check => Some(fast::check(bundle, scratch, values)),
            Call::Rough(function, uppers) => Some(fast::rough(bundle, scratch, function, uppers, values)),
            _ => None,
        }
    }

    /// A reply of this call as the wrapper's answer, and that answer as a reply again.
    fn through_the_wrapper(&self, reply: curiumtoad::Reply) -> curiumtoad::Reply {
        fn there_and_back<A: Answer>(reply: curiumtoad::Reply) -> curiumtoad::Reply {
            A::of(reply).reply()
        }
        match self {
            Call::Open => there_and_back::<Result<curiumtoad::Counts, curiumtoad::Refusal>>(reply),
            Call::Ancestry(..) => there_and_back::<Result<curiumtoad::Ancestry, curiumtoad::Refusal>>(reply),
            Call::Lookup(..) => there_and_back::<curiumtoad::Lookup>(reply),
            Call::Rough(..) => there_and_back::<curiumtoad::Rough>(reply),
            Call::SendType(..) => there_and_back::<curiumtoad::SendType>(reply),
            Call::Check => there_and_back::<curiumtoad::Verdict>(reply),
            Call::Witness(..) => there_and_back::<curiumtoad::Witness>(reply),
            Call::Body(..) => there_and_back::<Result<Range<usize>, curiumtoad::Refusal>>(reply),
            Call::Run(..) => there_and_back::<curiumtoad::Run>(reply),
            Call::RunAccepted(..) => there_and_back::<curiumtoad::AcceptedRun>(reply),
            Call::Listing(..) => there_and_back::<Option<usize>>(reply),
            Call::Chart(..) => there_and_back::<curiumtoad::Chart>(reply),
        }
    }
}

/// Lengths of the lent buffers of a call, and where the buffers begin in their stores.
#[derive(Clone, Copy, Debug)]
struct Lent {
    scratch: usize,
    row: usize,
    text: usize,
    start: usize,
}

impl Lent {
    fn choose(random: &mut Random, call: &Call) -> Lent {
        let scratch = match random.below(16) {
            0 => random.of(&[0, 1, 15, 16, 1_024, 2_032, 2_047]),
            1 => random.below(plain::SCRATCH),
            2..=9 => plain::SCRATCH,
            10..=13 => plain::SCRATCH + random.within(1, 200),
            // So long that a matrix of a byte for each pair would fit, or nearly.
            14 => random.of(&[PAIRS - 1, PAIRS, PAIRS + 1]),
            _ => random.within(plain::SCRATCH, 20_000),
        };
        let row = match random.below(16) {
            0 => random.of(&[0, 1, 64, 127]),
            1 => random.below(plain::ROW),
            2..=8 => plain::ROW,
            _ => plain::ROW + random.within(1, 200),
        };
        Lent { scratch, row, text: call.text_length(), start: random.below(17) }
    }

    /// With a scratch that is long enough, and nothing else.
    fn scratch(random: &mut Random) -> Lent {
        Lent { scratch: plain::SCRATCH + 40, row: 0, text: 0, start: random.below(17) }
    }
}

/// A store of bytes of which a part is lent; the bytes around the part have to stay.
struct Store {
    bytes: Vec<u8>,
    lent: Range<usize>,
}

impl Store {
    /// A part at `start` that holds the given bytes, with some bytes before and after it.
    fn holding(part: &[u8], start: usize) -> Store {
        let mut bytes = vec![0xa5; start];
        bytes.extend(part);
        bytes.extend([0x5a; 24]);
        Store { bytes, lent: start..start + part.len() }
    }

    fn part(&mut self) -> &mut [u8] {
        &mut self.bytes[self.lent.clone()]
    }
}

/// The number and the values of an answer, and the buffers after it.
struct Answered {
    reply: (u8, raw::Values),
    buffers: [Store; 3],
}

impl Answered {
    /// What is not as it was expected.
    fn different(&self, expected: &Answered) -> Vec<&'static str> {
        let mut different = Vec::new();
        if self.reply != expected.reply {
            different.push("the reply");
        }
        for (at, name) in ["the scratch", "the row", "the text"].into_iter().enumerate() {
            if self.buffers[at].bytes != expected.buffers[at].bytes {
                different.push(name);
            }
        }
        different
    }
}

/// Makes calls on all implementations, counts them, and prints where they differ.
pub struct Comparer {
    pub tally: Tally,
    noise: Vec<u8>,
    /// What the library answered to rough calls on the bundle at hand.
    rough: rough::Answers,
}

impl Default for Comparer {
    fn default() -> Self {
        let mut random = Random::new(1);
        let noise = (0..1 << 20).map(|_| random.byte()).collect();
        Comparer { tally: Tally::default(), noise, rough: rough::Answers::default() }
    }
}

/// How many differences are printed before the comparison gives up.
const MOST_DIFFERENCES: usize = 10;

impl Comparer {
    /// Whether so many differences were printed that no more bundles are compared.
    pub fn given_up(&self) -> bool {
        self.tally.differences >= MOST_DIFFERENCES
    }

    /// Makes the calls on one bundle, and a check with a scratch that is long enough, by whose number the bundle is counted.
    pub fn bundle(&mut self, bundle: &[u8], calls: &[Call], random: &mut Random) {
        self.tally.bundles += 1;
        self.rough = rough::Answers::default();
        for call in calls {
            if self.given_up() {
                return;
            }
            let lent = Lent::choose(random, call);
            self.call(bundle, call, lent, random);
        }
        let lent = Lent::scratch(random);
        let number = self.call(bundle, &Call::Check, lent, random);
        self.tally.checks[number as usize] += 1;
        self.hold_narrowed(bundle);
    }

    fn noise(&self, length: usize, random: &mut Random) -> &[u8] {
        let start = random.below(self.noise.len() - length);
        &self.noise[start..start + length]
    }

    /// Makes a call, and gives the number of its answer.
    fn call(&mut self, bundle: &[u8], call: &Call, lent: Lent, random: &mut Random) -> u8 {
        let lengths = [lent.scratch, lent.row, lent.text];
        let mut buffers = lengths.map(|length| Store::holding(self.noise(length, random), lent.start));
        let [mut buffers_2, mut buffers_3] =
            [(); 2].map(|()| buffers.each_mut().map(|buffer| Store::holding(buffer.part(), lent.start)));
        let mut bundle_2 = Store::holding(bundle, lent.start);

        let plain::Reply { number, values } = call.by_plain(bundle, buffers.each_mut().map(Store::part));
        let mut values_2 = [random.bits(); 8];
        let mut values_3 = values_2;
        let number_2 = call.by_library(bundle_2.part(), buffers_2.each_mut().map(Store::part), &mut values_2);
        let number_3 = call.by_fast(bundle, buffers_3.each_mut().map(Store::part), &mut values_3);

        let mut expected = Answered { reply: (number, values), buffers };
        let library = Answered { reply: (number_2, values_2), buffers: buffers_2 };
        self.count(bundle, call, &mut expected);
        let mut different = library.different(&expected);
        let reply = curiumtoad::Reply { number: number_2, values: values_2 };
        if library.reply == expected.reply && call.through_the_wrapper(reply) != reply {
            different.push("the wrapper's answer");
        }
        if bundle_2.bytes != Store::holding(bundle, lent.start).bytes {
            different.push("the bundle");
        }
        // The numbers of a lookup on a bundle that opens, with scratch enough.
        if let (&Call::Lookup(function, [a, b, c]), 0 | 10 | 11 | 18) = (call, number) {
            if !exact::agrees(bundle, [function, a, b, c], library.reply) {
                different.push("the match by the method's record");
            }
        }
        let mut peers = vec![("the library", library.reply, different)];
        if let Some(number_3) = number_3 {
            let fast = Answered { reply: (number_3, values_3), buffers: buffers_3 };
            peers.push(("fast", fast.reply, fast.different(&expected)));
        }
        for (peer, reply, different) in peers.into_iter().filter(|(_, _, different)| !different.is_empty()) {
            self.tally.differences += 1;
            println!("different: {} of {call:?} with {lent:?}", different.join(", "));
            println!("  plain gives {:?}", expected.reply);
            println!("  {peer} gives {reply:?}");
            println!("  bundle {}", hex(bundle));
        }
        if let (&Call::Rough(function, uppers), 0, 0) = (call, number, number_2) {
            self.rough.add(expected.buffers[0].part(), function, uppers, values_2);
        }
        number
    }

    /// Counts a call by its answer, and by what it had to tell apart.
    fn count(&mut self, bundle: &[u8], call: &Call, answered: &mut Answered) {
        let (number, values) = answered.reply;
        self.tally.count(call.name(), number);
        if call.takes_scratch() {
            self.tally.count_scratch(number, answered.buffers[0].lent.len());
        }
        match (call, number) {
            (&Call::Run(function, arguments, count), 0 | 25..=27)
            | (&Call::RunAccepted(function, arguments, count), 0) => {
                if number == 0 {
                    self.tally.count_run(values);
                }
                if let Some(resends) = plain::resends(bundle, function, arguments, count) {
                    let accepted = matches!(call, Call::RunAccepted(..));
                    self.tally.count_resends(resends::kinds(resends, accepted, number, values));
                }
            }
            (Call::Open, _) => self.count_opening(bundle, number, values[0] as usize),
            (Call::Ancestry(..), 0) => self.tally.count_ancestry(values[0]),
            (&Call::Lookup(function, arguments), 0) => {
                self.tally.count_lookup(exact::kinds(bundle, function, arguments, values[0]));
            }
            (&Call::Rough(function, uppers), 0) => {
                self.tally.count_rough(rough::kinds(bundle, function, uppers, values));
            }
            (_, 11) => {
                let (beaten, rivals) = beaten_and_rivals(bundle, answered.buffers[0].part(), call.sent(values));
                self.tally.count_rivals(&beaten, &rivals);
            }
            _ => {}
        }
    }

    /// Holds the library's answers to rough calls on a bundle to one another, where one has classes under those of another.
    fn hold_narrowed(&mut self, bundle: &[u8]) {
        for (wide, narrow) in self.rough.narrowed() {
            self.tally.count_narrowed(wide.answer, narrow.answer);
            if !wide.allows(narrow) && !self.given_up() {
                self.tally.differences += 1;
                println!("not kept for classes under the upper ones: {wide:?}, then {narrow:?}");
                println!("  bundle {}", hex(bundle));
            }
        }
    }

    /// Counts what an opening that gave the number, and the record with it, had to tell apart.
    fn count_opening(&mut self, bundle: &[u8], number: u8, record: usize) {
        match number {
            0 => self.tally.count_buckets(opening::fullest_bucket(bundle)),
            4 | 7 => self.tally.count_misplaced(number, opening::off_by_one(bundle, number, record)),
            8 => self.tally.count_twins(opening::beside_twins(bundle, record)),
            _ => {}
        }
    }
}

/// Chooses calls for a bundle. The parts say which numbers are of interest; the bundle may have been damaged since.
pub fn choose(random: &mut Random, bundle: &[u8], parts: &Parts) -> Vec<Call> {
    let mut calls = vec![Call::Open, Call::Check];
    let chooser = &mut Chooser { random, parts };
    for _ in 0..2 {
        calls.push(Call::Body(chooser.number(parts.methods.len())));
        calls.push(Call::Ancestry(chooser.number(parts.classes.len()), chooser.number(parts.classes.len())));
        let (signature, tuple) = chooser.covered();
        calls.push(Call::Witness(signature, tuple));
    }
    for _ in 0..3 {
        let (function, tuple) = chooser.send();
        calls.push(Call::Lookup(function, tuple));
        let (function, tuple) = chooser.send();
        calls.push(Call::SendType(function, tuple));
        let (function, tuple) = chooser.send();
        let count = chooser.count(bundle, function, tuple);
        calls.push(Call::Run(function, tuple, count));
        calls.push(chooser.chart());
    }
    let (function, tuple) = chooser.send();
    let count = chooser.count(bundle, function, tuple);
    calls.push(Call::RunAccepted(function, tuple, count));
    for (function, tuple) in chooser.resent() {
        let count = chooser.count(bundle, function, tuple);
        calls.extend([Call::Run, Call::RunAccepted].map(|call| call(function, tuple, count)));
    }
    let opened = rough::Opened::of(bundle);
    for _ in 0..2 {
        calls.extend(chooser.rough(opened.as_ref()));
    }
    calls.extend(listings(bundle));
    calls
}

/// Listings in buffers that are empty, a byte short, just long enough, and long enough for any.
fn listings(bundle: &[u8]) -> [Call; 4] {
    let length = plain::listing(bundle, &mut [0; plain::TEXT]).values[0] as usize;
    [0, length - 1, length, plain::TEXT].map(Call::Listing)
}

/// Every line of a chart, and lines past its last, in buffers that are empty, a byte short, just long enough, and longer.
fn charts(bundle: &[u8], function: u64) -> Vec<Call> {
    let head = plain::chart(bundle, &mut [0; plain::SCRATCH], &mut [0; plain::LINE], function, 0);
    // Where there is no chart, its lines are taken to be as short as lines can be.
    let length = if head.number == 0 { head.values[0] as usize } else { 5 };
    let lines = length as u64 / 5;
    let lengths = [0, length - 1, length, length + 1];
    let numbers = (0..=lines).chain([255, 256, WIDE, WIDE + 1, u64::MAX]);
    numbers.flat_map(|line| lengths.map(|length| Call::Chart(function, line, length))).collect()
}

struct Chooser<'a> {
    random: &'a mut Random,
    parts: &'a Parts,
}

impl Chooser<'_> {
    /// A number below the count, or, once in a while, one that is absent, also where its low bits are not.
    fn number(&mut self, count: usize) -> u64 {
        if count != 0 && !self.random.once_in(24) {
            return self.random.below(count) as u64;
        }
        let within = if count == 0 { 0 } else { self.random.below(count) as u64 };
        let count = count as u64;
        let near = [count, count + 1, 127, 128, 255, 512];
        let cut = [8, 16, 32, 48, 63].map(|bits| within + (1 << bits));
        let greatest = [u32::MAX.into(), u64::MAX, u64::MAX - 255];
        self.random.of(&[&near[..], &cut, &greatest].concat())
    }

    /// A class under another, concrete if a few tries find one; or, once in a while, any class.
    fn class_under(&mut self, top: u8) -> u64 {
        if self.random.once_in(12) {
            return self.number(self.parts.classes.len());
        }
        let mut class = self.walk_down(top);
        for _ in 0..3 {
            if !self.parts.classes.get(class).is_some_and(|found| found.concrete) {
                class = self.walk_down(top);
            }
        }
        class as u64
    }

    /// A class, or one under it; or, once in a while, any class.
    fn upper_class(&mut self, top: u8) -> u64 {
        match self.random.below(12) {
            0..=1 => self.number(self.parts.classes.len()),
            2..=5 => self.walk_down(top) as u64,
            _ => top.into(),
        }
    }

    fn walk_down(&mut self, top: u8) -> usize {
        let mut class = top as usize;
        for lower in class + 1..self.parts.classes.len() {
            if self.parts.classes[lower].parents.contains(&(class as u8)) && self.random.once_in(2) {
                class = lower;
            }
        }
        class
    }

    /// A class at each used place, chosen by the top for that place.
    fn tuple(&mut self, function: u8, tops: [u8; 3], chosen: fn(&mut Self, u8) -> u64) -> [u64; 3] {
        let places = self.parts.functions.get(function as usize).copied().unwrap_or(3) as usize;
        let mut tuple = [0; 3];
        for place in 0..3 {
            if place < places {
                tuple[place] = chosen(self, tops[place]);
            } else if self.random.once_in(40) {
                tuple[place] = self.number(self.parts.classes.len());
            }
        }
        tuple
    }

    /// A signature and a tuple that it likely covers.
    fn covered(&mut self) -> (u64, [u64; 3]) {
        let number = self.number(self.parts.signatures.len());
        match self.parts.signatures.get(number as usize) {
            None => (number, [self.random.below(3) as u64, 0, 0]),
            Some(signature) => (number, self.tuple(signature.function, signature.arguments, Self::class_under)),
        }
    }

    /// A function and classes under those of a signature, of a method, or any.
    fn send(&mut self) -> (u64, [u64; 3]) {
        let (function, tops) = self.function();
        (function, self.tuple(function as u8, tops, Self::class_under))
    }

    /// Sends to methods that resend, or to more specific ones: one of them, and that with the highest specialisers.
    fn resent(&mut self) -> Vec<(u64, [u64; 3])> {
        let mut resending: Vec<&Method> =
            self.parts.methods.iter().filter(|method| method.body.contains(&[RESEND, 0])).collect();
        resending.sort_by_key(|method| method.specialisers);
        let Some(last) = resending.len().checked_sub(1) else {
            return Vec::new();
        };
        [self.random.below(resending.len()), last]
            .map(|at| {
                let method = resending[at];
                (method.function.into(), self.tuple(method.function, method.specialisers, Self::class_under))
            })
            .to_vec()
    }

    /// A function with the classes of a signature or of a method, or any function with class 0.
    fn function(&mut self) -> (u64, [u8; 3]) {
        let parts = self.parts;
        let kind = self.random.below(8);
        if kind < 4 && !parts.signatures.is_empty() {
            let signature = &parts.signatures[self.random.below(parts.signatures.len())];
            return (signature.function.into(), signature.arguments);
        }
        if kind < 7 && !parts.methods.is_empty() {
            let method = &parts.methods[self.random.below(parts.methods.len())];
            return (method.function.into(), method.specialisers);
        }
        (self.number(parts.functions.len()), [0; 3])
    }

    /// A rough call, and where the bundle opens one with classes under those of that one. Where it opens, the tuples are so few
    /// that `plain` can try all.
    fn rough(&mut self, opened: Option<&rough::Opened>) -> Vec<Call> {
        let (function, tops) = self.function();
        let uppers = self.tuple(function as u8, tops, Self::upper_class);
        let Some(opened) = opened else {
            return vec![Call::Rough(function, uppers)];
        };
        let work = if self.random.once_in(50) { generate::MUCH_WORK } else { generate::WORK };
        let wide = opened.within(self.random, work, function, uppers);
        let narrow = opened.narrower(self.random, function, wide);
        vec![Call::Rough(function, wide), Call::Rough(function, narrow)]
    }

    /// A line of the chart of a function, most often one of two arguments, in a buffer about as long as the line.
    fn chart(&mut self) -> Call {
        let functions = &self.parts.functions;
        let binary: Vec<usize> = (0..functions.len()).filter(|&function| functions[function] == 2).collect();
        let function = if binary.is_empty() || self.random.once_in(4) {
            self.number(functions.len())
        } else {
            self.random.of(&binary) as u64
        };
        let concretes = self.parts.classes.iter().filter(|class| class.concrete).count();
        // The head, a line for each class, and one line too many.
        let line = self.number(1 + concretes + 1);
        let length = 5 + 5 * concretes;
        let longer = length + self.random.below(200);
        Call::Chart(function, line, self.random.of(&[0, length - 1, length, length, length + 1, longer]))
    }

    /// A step count: any small one, or the greatest where the run is known to end.
    fn count(&mut self, bundle: &[u8], function: u64, tuple: [u64; 3]) -> u32 {
        let small = [0, 1, 2, 3, 4, 5, 7, 10, 20, 31, 32, 33, 60, 100, 300, 1000, 3000];
        if !self.random.once_in(4) {
            return self.random.of(&small);
        }
        let reply = plain::run(bundle, &mut [0; plain::SCRATCH], function, tuple, 5000);
        let spent = reply.number == 0 && reply.values[0] == 1;
        let steps = reply.values[7] as u32;
        match self.random.below(3) {
            _ if spent => 5000,
            0 => u32::MAX,
            // The steps of the run itself, one fewer, and one more.
            1 => steps.saturating_sub(1),
            _ => steps + self.random.below(2) as u32,
        }
    }
}

/// A number that is absent, though its low half is that of a record.
const WIDE: u64 = 1 << 32;

/// Every call with every small number, on a bundle of few records.
pub fn every(bundle: &[u8]) -> Vec<Call> {
    let counts = plain::open(bundle).values.map(|count| count.min(9));
    let classes = counts[0] + 1;
    let mut calls = vec![Call::Open, Call::Check];
    calls.extend(listings(bundle));
    calls.extend((0..=counts[3]).chain([255, 256, WIDE, u64::MAX]).map(Call::Body));
    for a in (0..classes).chain([128, WIDE, u64::MAX]) {
        calls.extend((0..classes).chain([128, WIDE, u64::MAX]).map(|b| Call::Ancestry(a, b)));
    }
    calls.extend((0..=counts[1]).chain([255, 256, WIDE, u64::MAX]).flat_map(|function| charts(bundle, function)));
    let mut tuples = Vec::new();
    for a in 0..classes {
        for b in 0..classes {
            tuples.extend([[a, b, 0], [a, b, 1]]);
        }
    }
    for wide in [256, 65_536, WIDE, u64::MAX] {
        tuples.extend([[wide, 0, 0], [0, wide, 0], [0, 0, wide]]);
    }
    for tuple in tuples {
        calls.extend((0..=counts[2]).chain([WIDE]).map(|signature| Call::Witness(signature, tuple)));
        for function in (0..=counts[1]).chain([WIDE]) {
            calls.extend([Call::Lookup, Call::Rough, Call::SendType].map(|call| call(function, tuple)));
            for count in [0, 1, 2, 31, 32, 33, u32::MAX] {
                calls.extend([Call::Run(function, tuple, count), Call::RunAccepted(function, tuple, count)]);
            }
        }
    }
    calls
}
