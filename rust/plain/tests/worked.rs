//! The worked cases of the rules.

use builder::{chart_3, chart_4, chart_5, looping, three_rivals, widest_chart, Parts, ARG, NEW, RESEND, SEND};
use plain::{Reply, Resends, LINE, ROW, SCRATCH, TEXT};

fn reply(number: u8, named: &[u64]) -> Reply {
    let mut values = [0; 8];
    values[..named.len()].copy_from_slice(named);
    Reply { number, values }
}

fn looked_up(parts: &Parts, a: u64, b: u64) -> Reply {
    plain::lookup(&parts.bytes(), &mut [7; SCRATCH], 0, [a, b, 0])
}

fn roughly(parts: &Parts, uppers: [u64; 3]) -> Reply {
    plain::rough(&parts.bytes(), &mut [7; SCRATCH], 0, uppers)
}

fn ran(parts: &Parts, arguments: [u64; 3], count: u32) -> Reply {
    plain::run(&parts.bytes(), &mut [7; SCRATCH], 0, arguments, count)
}

fn checked(parts: &Parts) -> Reply {
    plain::check(&parts.bytes(), &mut [7; SCRATCH])
}

#[test]
fn lengths() {
    assert_eq!(chart_3().bytes().len(), 127);
    assert_eq!(chart_4().bytes().len(), 141);
    assert_eq!(chart_5().bytes().len(), 146);
}

/// The matrix of the three charts. Class 2 is under 1, class 4 under 3, classes 6 and 7 are under 5, and all under 0.
fn chart_matrix() -> [u8; SCRATCH] {
    let mut matrix = [0; SCRATCH];
    for (byte, bits) in [
        (0, 0b1),
        (16, 0b11),
        (32, 0b111),
        (48, 0b1001),
        (64, 0b1_1001),
        (80, 0b10_0001),
        (96, 0b110_0001),
        (112, 0b1010_0001),
    ] {
        matrix[byte] = bits;
    }
    matrix
}

/// What the first bytes of a scratch hold after a call, whatever they held before; those behind them stay.
fn matrix(parts: &Parts) -> [u8; SCRATCH] {
    let [after, other] = [0x00, 0xff].map(|before| {
        let mut scratch = [before; 128 * 128 + 1];
        assert_eq!(plain::ancestry(&parts.bytes(), &mut scratch, 0, 0), reply(0, &[1]));
        assert!(scratch[SCRATCH..].iter().all(|&byte| byte == before));
        *scratch.first_chunk().expect("it is longer")
    });
    assert_eq!(after, other);
    after
}

#[test]
fn matrices() {
    assert_eq!(SCRATCH, 2_048);
    assert_eq!(matrix(&chart_3()), chart_matrix());
    // Class 9 is under 7 and 8, and every class under 0.
    let mut parts = Parts::default();
    parts.class(true, &[]);
    for _ in 1..9 {
        parts.class(true, &[0]);
    }
    parts.class(true, &[7, 8]);
    let ten = matrix(&parts);
    assert_eq!(ten[7 * 16..][..16], [0x81, 0, 0, 0, 0, 0, 0, 0, 0, 0, 0, 0, 0, 0, 0, 0]);
    assert_eq!(ten[8 * 16..][..16], [0x01, 1, 0, 0, 0, 0, 0, 0, 0, 0, 0, 0, 0, 0, 0, 0]);
    assert_eq!(ten[9 * 16..][..16], [0x81, 3, 0, 0, 0, 0, 0, 0, 0, 0, 0, 0, 0, 0, 0, 0]);
    assert!(ten[160..].iter().all(|&byte| byte == 0));
    // The last class is under every other one, the last but one under none but 0.
    while parts.classes.len() < 127 {
        parts.class(true, &[0]);
    }
    let all: Vec<u8> = (0..127).collect();
    parts.class(true, &all);
    let full = matrix(&parts);
    assert_eq!(full[..160], ten[..160]);
    assert_eq!(full[2_016..2_032], [1, 0, 0, 0, 0, 0, 0, 0, 0, 0, 0, 0, 0, 0, 0, 0x40]);
    assert_eq!(full[2_032..], [255; 16]);
}

/// A call that is refused by 19, or does not open the bundle, leaves the scratch as it was.
#[test]
fn refused_scratches() {
    let bundle = chart_3().bytes();
    for length in [0, 1, 2_047] {
        let mut scratch = vec![7; length];
        assert_eq!(plain::ancestry(&bundle, &mut scratch, 0, 0), reply(19, &[]));
        assert_eq!(scratch, vec![7; length]);
    }
    let mut scratch = [7; SCRATCH];
    assert_eq!(plain::ancestry(&bundle[1..], &mut scratch, 0, 0), reply(2, &[]));
    assert_eq!(scratch, [7; SCRATCH]);
}

#[test]
fn lookups() {
    assert_eq!(looked_up(&chart_3(), 1, 3), reply(0, &[2, 1]));
    assert_eq!(looked_up(&chart_3(), 1, 4), reply(0, &[0, 1]));
    assert_eq!(looked_up(&chart_3(), 2, 3), reply(0, &[1, 1]));
    assert_eq!(looked_up(&chart_3(), 2, 4), reply(11, &[0, 2, 4, 0, 1, 0]));
    assert_eq!(looked_up(&chart_4(), 2, 4), reply(0, &[3, 1]));
    assert_eq!(looked_up(&three_rivals(), 5, 0), reply(11, &[0, 5, 0, 0, 3, 1]));
}

/// A lookup adds 1 where the specialisers of the method are the arguments at all used places, abstract classes included.
#[test]
fn exact_matches() {
    // The first place alone is the same; the second alone; both; the other way round.
    assert_eq!(looked_up(&several_broken(), 3, 1), reply(0, &[0, 0]));
    assert_eq!(looked_up(&several_broken(), 1, 2), reply(0, &[1, 0]));
    assert_eq!(looked_up(&several_broken(), 1, 3), reply(0, &[3, 1]));
    assert_eq!(looked_up(&several_broken(), 3, 0), reply(0, &[0, 1]));
    assert_eq!(looked_up(&several_broken(), 0, 2), reply(0, &[1, 1]));
    // There are no places that could differ.
    assert_eq!(looked_up(&looping(), 0, 0), reply(0, &[0, 1]));
    // Three places, of which one after the other has a class under that of the method.
    let mut parts = chart_3();
    parts.functions[0] = 3;
    parts.signatures.clear();
    parts.methods.truncate(1);
    parts.methods[0].specialisers = [1, 3, 5];
    let bundle = parts.bytes();
    for (arguments, exact) in [([1, 3, 5], 1), ([2, 3, 5], 0), ([1, 4, 5], 0), ([1, 3, 6], 0), ([2, 4, 7], 0)] {
        assert_eq!(plain::lookup(&bundle, &mut [7; SCRATCH], 0, arguments), reply(0, &[0, exact]), "{arguments:?}");
    }
}

#[test]
fn ancestries() {
    let asked = |parts: &Parts, a, b| plain::ancestry(&parts.bytes(), &mut [7; SCRATCH], a, b);
    let [neither, same, heir] = [0, 1, 2].map(|answer| reply(0, &[answer]));
    for class in 0..8 {
        assert_eq!(asked(&chart_3(), class, class), same);
    }
    assert_eq!(asked(&chart_3(), 4, 3), heir);
    assert_eq!(asked(&chart_3(), 3, 4), neither);
    assert_eq!(asked(&chart_3(), 4, 0), heir);
    assert_eq!(asked(&chart_3(), 4, 1), neither);
    // Class 5 has three parents, which are all under 1.
    for above in 0..5 {
        assert_eq!(asked(&three_rivals(), 5, above), heir);
        assert_eq!(asked(&three_rivals(), above, 5), neither);
    }
    for (a, b) in [(8, 0), (0, 8), (8, 8), (8, 9), (128, 128), (1 << 32, 0), (u64::MAX, u64::MAX)] {
        assert_eq!(asked(&chart_3(), a, b), reply(18, &[]), "{a} {b}");
    }
}

#[test]
fn rough_answers() {
    let one = |method| reply(0, &[0, method]);
    let (may_fail, several) = (reply(0, &[1]), reply(0, &[2]));
    assert_eq!(roughly(&chart_4(), [1, 3, 0]), several);
    assert_eq!(roughly(&chart_4(), [1, 4, 0]), several);
    assert_eq!(roughly(&chart_4(), [2, 4, 0]), one(3));
    // Three tuples find three methods before the fourth is ambiguous.
    assert_eq!(roughly(&chart_3(), [1, 3, 0]), may_fail);
    assert_eq!(roughly(&chart_3(), [0, 0, 0]), may_fail);
    // Class 5 alone is concrete, and under the others.
    assert_eq!(roughly(&three_rivals(), [2, 0, 0]), may_fail);
    assert_eq!(roughly(&looping(), [0; 3]), one(0));
    // What the declared classes do not hold is found all the same.
    assert_eq!(roughly(&several_broken(), [1, 0, 0]), several);
    assert_eq!(roughly(&several_broken(), [1, 3, 0]), one(3));
}

/// 19 comes before 18, and 18 before 24, which is about used places alone.
#[test]
fn refused_rough_calls() {
    let mut parts = Parts::default();
    parts.class(false, &[]);
    parts.class(true, &[0]);
    parts.class(false, &[0]);
    parts.functions.extend([2, 0]);
    parts.method(1, [0; 3], 0, &[[NEW, 1]]);
    let bundle = parts.bytes();
    let asked = |scratch, function, uppers| plain::rough(&bundle, &mut vec![7; scratch], function, uppers);
    assert_eq!(plain::rough(&bundle[1..], &mut [], 2, [3, 3, 3]), reply(2, &[]));
    assert_eq!(asked(SCRATCH - 1, 0, [2, 3, 0]), reply(19, &[]));
    for (function, uppers) in [(2, [0, 0, 0]), (0, [2, 3, 0]), (0, [2, 1 << 63, 0]), (0, [2, 0, 1]), (1, [1, 0, 0])] {
        assert_eq!(asked(SCRATCH, function, uppers), reply(18, &[]));
    }
    assert_eq!(asked(SCRATCH, 0, [2, 1, 0]), reply(24, &[]));
    assert_eq!(asked(SCRATCH, 0, [0, 2, 0]), reply(24, &[]));
    assert_eq!(asked(SCRATCH, 0, [0, 0, 0]), reply(0, &[1]));
    assert_eq!(asked(SCRATCH, 1, [0, 0, 0]), reply(0, &[0]));
    // With no concrete class at all, a function without arguments still has its one tuple.
    parts.classes[1].concrete = false;
    parts.function(0);
    let bundle = parts.bytes();
    for (function, answer) in [(0, reply(24, &[])), (1, reply(0, &[0])), (2, reply(0, &[1]))] {
        assert_eq!(plain::rough(&bundle, &mut [7; SCRATCH], function, [0; 3]), answer);
    }
}

#[test]
fn checks() {
    assert_eq!(checked(&chart_3()), reply(11, &[0, 0, 2, 4, 0, 1, 0]));
    assert_eq!(checked(&three_rivals()), reply(11, &[0, 0, 5, 0, 0, 3, 1]));
    assert_eq!(checked(&chart_4()), reply(0, &[]));
    assert_eq!(checked(&chart_5()), reply(0, &[]));
    assert_eq!(checked(&looping()), reply(0, &[]));
    assert_eq!(checked(&several_broken()), reply(12, &[0, 0, 1, 3, 0, 3]));
}

/// Three broken tuples: (1, 3) by 12, then (2, 1) by 10, then (3, 2) by 11.
fn several_broken() -> Parts {
    let mut parts = Parts::default();
    parts.class(false, &[]);
    for _ in 0..3 {
        parts.class(true, &[0]);
    }
    let function = parts.function(2);
    parts.signature(function, [0; 3], 0);
    for specialisers in [[3, 0, 0], [0, 2, 0], [1, 1, 0], [1, 3, 0], [2, 3, 0]] {
        parts.method(function, specialisers, 0, &[[NEW, 1]]);
    }
    parts.methods[3].declared = [1, 1, 0];
    parts
}

#[test]
fn runs() {
    assert_eq!(ran(&chart_4(), [2, 4, 0], 1), reply(0, &[0, 7, 0, 0, 0, 0, 0, 1]));
    assert_eq!(ran(&chart_4(), [2, 4, 0], 0), reply(0, &[1]));
    assert_eq!(ran(&three_rivals(), [5, 0, 0], 9), reply(11, &[0, 5, 0, 0, 3, 1]));
    assert_eq!(ran(&looping(), [0; 3], 31), reply(0, &[1, 0, 0, 0, 0, 0, 0, 31]));
    assert_eq!(ran(&looping(), [0; 3], 32), reply(0, &[2, 0, 0, 0, 0, 0, 0, 31]));
}

/// The chart with four methods, one of which has this body. Methods 0 and 1 override 2 alone, and 3 overrides all of these.
fn chart_with(method: usize, body: &[[u8; 2]]) -> Parts {
    let mut parts = chart_4();
    parts.methods[method].body = body.to_vec();
    parts
}

/// The reply of a run with these steps.
fn after(steps: u64, number: u8, named: &[u64]) -> Reply {
    let mut reply = reply(number, named);
    reply.values[7] = steps;
    reply
}

#[test]
fn checked_resends() {
    let resend = [RESEND, 0];
    assert_eq!(checked(&chart_with(0, &[resend])), reply(0, &[]));
    assert_eq!(checked(&chart_with(2, &[resend])), reply(25, &[2, 0]));
    assert_eq!(checked(&chart_with(2, &[[NEW, 6], resend])), reply(25, &[2, 1]));
    assert_eq!(checked(&chart_with(3, &[resend])), reply(26, &[3, 0]));
    // The target gives class 6, and the method is to give 7.
    assert_eq!(checked(&chart_with(1, &[resend])), reply(17, &[1, 1]));
    // It takes nothing off the stack.
    assert_eq!(checked(&chart_with(0, &[[ARG, 0], resend])), reply(14, &[0, 2]));
    assert_eq!(checked(&chart_with(0, &[resend, resend])), reply(14, &[0, 2]));
    // Without arguments every other method would be a twin.
    let mut parts = looping();
    parts.methods[0].body = vec![resend];
    assert_eq!(checked(&parts), reply(25, &[0, 0]));
    // Coverage comes first.
    parts.methods.clear();
    assert_eq!(checked(&parts), reply(10, &[0, 0, 0, 0, 0]));
    for wrong in [[RESEND, 1], [RESEND, 255], [4, 0]] {
        assert_eq!(checked(&chart_with(1, &[[NEW, 7], wrong])), reply(9, &[1]), "{wrong:?}");
    }
}

/// What the target declares has to be in the type that the argument has, by its specialiser or by its declared class.
#[test]
fn declared_classes_of_a_target() {
    let mut parts = chart_with(1, &[[RESEND, 0]]);
    parts.signatures.clear();
    parts.methods[1].result = 6;
    assert_eq!(checked(&parts), reply(0, &[]));
    parts.methods[2].declared = [1, 4, 0];
    assert_eq!(checked(&parts), reply(27, &[1, 0]));
    parts.methods[1].declared = [2, 4, 0];
    assert_eq!(checked(&parts), reply(0, &[]));
    // A run goes by the classes of the arguments alone.
    parts.methods[1].declared = [2, 3, 0];
    assert_eq!(ran(&parts, [2, 3, 0], 9), after(0, 27, &[1, 0]));
    parts.methods.retain(|method| method.specialisers[1] == 3);
    assert_eq!(ran(&parts, [2, 4, 0], 9), after(2, 0, &[0, 6]));
}

#[test]
fn runs_of_resends() {
    let resend = [RESEND, 0];
    assert_eq!(ran(&chart_with(0, &[resend]), [1, 4, 0], 0), after(0, 0, &[1]));
    assert_eq!(ran(&chart_with(0, &[resend]), [1, 4, 0], 1), after(1, 0, &[1]));
    assert_eq!(ran(&chart_with(0, &[resend]), [1, 4, 0], 2), after(2, 0, &[0, 6]));
    assert_eq!(ran(&chart_with(2, &[[NEW, 6], resend]), [1, 3, 0], 9), after(1, 25, &[2, 1]));
    assert_eq!(ran(&chart_with(2, &[[NEW, 6], resend]), [1, 3, 0], 1), after(1, 0, &[1]));
    assert_eq!(ran(&chart_with(3, &[resend]), [2, 4, 0], 9), after(0, 26, &[3, 0]));
    // The target gets the arguments as they are, not what is on the stack.
    let mut parts = chart_with(0, &[[NEW, 7], resend]);
    parts.methods[2].body = vec![[ARG, 1]];
    assert_eq!(ran(&parts, [1, 4, 0], 9), after(3, 14, &[0, 2]));
    parts.methods[0].body.remove(0);
    assert_eq!(ran(&parts, [1, 4, 0], 9), after(2, 0, &[0, 4]));
}

/// Classes in a line, with a method for each that resends, but for the first, which has its argument as value. The last class
/// stands beside the line.
fn line(length: u8) -> Parts {
    let mut parts = Parts::default();
    let function = parts.function(1);
    parts.signature(function, [0; 3], 0);
    for number in 0..length {
        let (parents, body) = if number == 0 { (vec![], [ARG, 0]) } else { (vec![number - 1], [RESEND, 0]) };
        parts.class(true, &parents);
        parts.method(function, [number, 0, 0], 0, &[body]);
    }
    parts.class(true, &[0]);
    parts
}

/// Each resends from its own method, one frame on the other; Spent comes first, and Deep last.
#[test]
fn lines_of_resends() {
    assert_eq!(checked(&line(33)), reply(0, &[]));
    assert_eq!(ran(&line(33), [31, 0, 0], 99), after(32, 0, &[0, 31]));
    assert_eq!(ran(&line(33), [32, 0, 0], 31), after(31, 0, &[1]));
    assert_eq!(ran(&line(33), [32, 0, 0], 32), after(31, 0, &[2]));
    let mut parts = line(33);
    parts.methods[0].declared = [33, 0, 0];
    assert_eq!(ran(&parts, [32, 0, 0], 99), after(31, 27, &[1, 0]));
    assert_eq!(ran(&parts, [32, 0, 0], 31), after(31, 0, &[1]));
    parts.methods.remove(0);
    assert_eq!(ran(&parts, [32, 0, 0], 99), after(31, 25, &[0, 0]));
    // The line begins anew where it ends, after two resends and a send of three frames.
    let mut parts = line(3);
    parts.methods[0].body.push([SEND, 0]);
    assert_eq!(checked(&parts), reply(0, &[]));
    assert_eq!(ran(&parts, [2, 0, 0], 99), after(41, 0, &[2]));
}

#[test]
fn counted_resends() {
    let counted = |parts: &Parts, class, count| plain::resends(&parts.bytes(), 0, [class, 0, 0], count);
    for (count, made, ended_in) in [(0, 0, Some(1)), (1, 1, Some(2)), (2, 2, None), (3, 2, None)] {
        assert_eq!(counted(&line(3), 2, count), Some(Resends { made, ended_in }), "{count}");
    }
    assert_eq!(counted(&line(33), 32, 99), Some(Resends { made: 31, ended_in: Some(32) }));
    assert_eq!(counted(&line(3), 0, 1), Some(Resends { made: 0, ended_in: None }));
    assert_eq!(counted(&line(3), 4, 1), None);
}

#[test]
fn send_types() {
    let mut row = [9; ROW + 1];
    let answer = plain::send_type(&chart_5().bytes(), &mut [7; SCRATCH], &mut row, 0, [2, 4, 0]);
    assert_eq!(answer, reply(0, &[]));
    let inside: Vec<usize> = (0..ROW).filter(|&class| row[class] == 1).collect();
    assert_eq!(inside, [0, 5, 7]);
    assert_eq!(row[ROW], 9);
}

#[test]
fn openings() {
    let empty = Parts::default().bytes();
    assert_eq!(empty.len(), 24);
    assert_eq!(plain::open(&empty[..23]), reply(1, &[]));
    assert_eq!(plain::open(&empty), reply(3, &[]));
    let mut parts = Parts::default();
    parts.class(true, &[]);
    assert_eq!(parts.bytes().len(), 30);
    assert_eq!(checked(&parts), reply(0, &[]));
    while parts.classes.len() < 128 {
        parts.class(true, &[0]);
    }
    assert_eq!(plain::open(&parts.bytes()), reply(0, &[128, 0, 0, 0]));
    parts.class(true, &[0]);
    assert_eq!(plain::open(&parts.bytes()), reply(3, &[]));
}

#[test]
fn listings() {
    let mut text = [9; TEXT];
    let expected = b"classes 8 functions 1 signatures 1 methods 3\nrefused 11 signature 0 send 0 2 4 methods 1 0\n";
    let bundle = chart_3().bytes();
    assert_eq!(plain::listing(&bundle, &mut text), reply(0, &[expected.len() as u64]));
    assert_eq!(text[..expected.len()], expected[..]);
    assert!(text[expected.len()..].iter().all(|&byte| byte == 9));
    let expected_2 = b"classes 8 functions 1 signatures 1 methods 4\nrefused 25 method 2 at 1\n";
    let mut text_2 = [9; TEXT];
    let broken = chart_with(2, &[[NEW, 6], [RESEND, 0]]).bytes();
    assert_eq!(plain::listing(&broken, &mut text_2), reply(0, &[expected_2.len() as u64]));
    assert_eq!(text_2[..expected_2.len()], expected_2[..]);
    let mut short = [9; 90];
    assert_eq!(expected.len(), short.len() + 1);
    assert_eq!(plain::listing(&bundle, &mut short), reply(20, &[]));
    assert_eq!(short, [9; 90]);
}

/// The reply for a line of the chart of function 0, and the line.
fn charted(parts: &Parts, line: u64) -> (Reply, String) {
    let mut text = [0; LINE];
    let reply = plain::chart(&parts.bytes(), &mut [7; SCRATCH], &mut text, 0, line);
    let length = reply.values[0] as usize;
    (reply, String::from_utf8_lossy(&text[..length]).into_owned())
}

fn line_of(line: &str) -> (Reply, String) {
    (reply(0, &[line.len() as u64]), line.to_string())
}

fn refused(number: u8) -> (Reply, String) {
    (reply(number, &[]), String::new())
}

#[test]
fn charts() {
    for parts in [chart_3(), chart_4(), chart_5()] {
        let lapsed = if parts.methods.len() == 3 { '*' } else { '3' };
        assert_eq!(charted(&parts, 0), line_of("        1    2    3    4    6    7\n"));
        assert_eq!(charted(&parts, 1), line_of("   1    -    -    2    0    -    -\n"));
        assert_eq!(charted(&parts, 2), line_of(&format!("   2    -    -    1    {lapsed}    -    -\n")));
        for (line, class) in [(3, 3), (4, 4), (5, 6), (6, 7)] {
            assert_eq!(charted(&parts, line), line_of(&format!("   {class}    -    -    -    -    -    -\n")));
        }
        assert_eq!(charted(&parts, 7), refused(22));
    }
}

/// The method of a cell may be one that the send would be refused by.
#[test]
fn a_chart_shows_what_is_found() {
    let parts = several_broken();
    assert_eq!(charted(&parts, 1), line_of("   1    2    1    3\n"));
    assert_eq!(charted(&parts, 2), line_of("   2    -    1    4\n"));
    assert_eq!(charted(&parts, 3), line_of("   3    0    *    0\n"));
}

#[test]
fn the_narrowest_chart_and_the_widest() {
    let mut parts = Parts::default();
    parts.class(false, &[]);
    parts.function(2);
    assert_eq!(charted(&parts, 0), line_of("    \n"));
    assert_eq!(charted(&parts, 1), refused(22));
    let parts = widest_chart();
    for (line, start, end) in [
        (0, "        0    1    2    3", " 125  126  127\n"),
        (1, "   0    0    1    2    3", "  14   14   14\n"),
        (23, "  22  506  507  508  509  510  511    *", "   *    *    *\n"),
        (128, " 127  322  323  324  325", " 336  336  336\n"),
    ] {
        let (answer, text) = charted(&parts, line);
        assert_eq!(answer, reply(0, &[LINE as u64]));
        assert!(text.starts_with(start) && text.ends_with(end), "{text}");
    }
    assert_eq!(charted(&parts, 129), refused(22));
}

/// Each refusal comes before those that hold as well, and leaves the buffer as it was.
#[test]
fn refused_charts() {
    let mut parts = chart_3();
    parts.functions.extend([0, 1, 3]);
    let bundle = parts.bytes();
    let mut text = [9; 34];
    let mut asked = |bundle: &[u8], scratch: &mut [u8], function, line| {
        let reply = plain::chart(bundle, scratch, &mut text, function, line);
        assert_eq!(text, [9; 34]);
        reply
    };
    assert_eq!(asked(&bundle[1..], &mut [], 4, 7), reply(2, &[]));
    assert_eq!(asked(&bundle, &mut [7; SCRATCH - 1], 4, 7), reply(19, &[]));
    assert_eq!(asked(&bundle, &mut [7; SCRATCH], 4, 7), reply(18, &[]));
    for function in 1..4 {
        assert_eq!(asked(&bundle, &mut [7; SCRATCH], function, 7), reply(21, &[]));
    }
    assert_eq!(asked(&bundle, &mut [7; SCRATCH], 0, 7), reply(22, &[]));
    assert_eq!(asked(&bundle, &mut [7; SCRATCH], 0, 6), reply(23, &[]));
}

#[test]
fn a_chart_writes_its_line_and_the_scratch() {
    let (mut scratch, mut text) = ([7; SCRATCH + 1], [9; 36]);
    assert_eq!(plain::chart(&chart_3().bytes(), &mut scratch, &mut text, 0, 6), reply(0, &[35]));
    assert_eq!(text, *b"   7    -    -    -    -    -    -\n\x09");
    assert_eq!((&scratch[..SCRATCH], scratch[SCRATCH]), (&chart_matrix()[..], 7));
    let mut scratch = [7; SCRATCH];
    assert_eq!(plain::chart(&chart_3().bytes(), &mut scratch, &mut [], 0, 6), reply(23, &[]));
    assert_eq!(scratch, chart_matrix());
}
