//! The sample bundles by the wrapper's types, and buffers of every length.

use curiumtoad::{
    ancestry, body, chart, check, listing, lookup, open, raw, rough, run, run_accepted, send_type, witness,
    AcceptedRun, Ancestry, BodyFault, BrokenBody, BrokenSignature, Chart, Ending, Fault, Finding, Lookup, Refusal,
    Rough, Run, SendType, Sent, Verdict, Witness, LINE, ROW, SCRATCH, TEXT,
};

fn sample(name: &str) -> Vec<u8> {
    let path = format!("{}/../../bundles/{name}.bundle", env!("CARGO_MANIFEST_DIR"));
    std::fs::read(path).expect("the sample is there")
}

fn verdict(name: &str) -> Verdict {
    check(&sample(name), &mut [0; SCRATCH])
}

fn coverage(verdict: Verdict) -> BrokenSignature {
    match verdict {
        Verdict::Broken(Finding::Coverage(broken)) => broken,
        other => panic!("{other:?}"),
    }
}

fn bodies(verdict: Verdict) -> BrokenBody {
    match verdict {
        Verdict::Broken(Finding::Body(broken)) => broken,
        other => panic!("{other:?}"),
    }
}

#[test]
fn accepted_samples() {
    for name in ["chart-4", "chart-5", "loop", "one-class", "abstract-argument", "resend"] {
        assert_eq!(verdict(name), Verdict::Accepted, "{name}");
    }
}

#[test]
fn refused_samples() {
    assert_eq!(coverage(verdict("chart-3")).fault, Fault::Rivals([1, 0]));
    assert!(matches!(coverage(verdict("narrow-declared")).fault, Fault::Declared(_)));
    assert!(matches!(coverage(verdict("wide-result")).fault, Fault::Result(_)));
    assert_eq!(bodies(verdict("two-values")).fault, BodyFault::Values);
    assert_eq!(bodies(verdict("abstract-new")).fault, BodyFault::Abstract);
    assert_eq!(bodies(verdict("no-licence")).fault, BodyFault::NoLicence);
    assert_eq!(bodies(verdict("loose-result")).fault, BodyFault::Result);
    assert_eq!(bodies(verdict("no-overridden")).fault, BodyFault::NoOverridden);
    assert_eq!(bodies(verdict("ambiguous-resend")).fault, BodyFault::AmbiguousResend);
    assert_eq!(bodies(verdict("narrow-target")).fault, BodyFault::NarrowTarget);
    assert!(matches!(verdict("resend-operand"), Verdict::Refused(Refusal::Operand(_))));
}

/// The sample chart-4 with a resend for the body of a method. Methods 0 and 1 override 2 alone, which overrides none, and 3
/// overrides all of these.
fn chart_resending(method: u64) -> Vec<u8> {
    let mut bundle = sample("chart-4");
    let mut values = raw::Values::default();
    assert_eq!(raw::body(&bundle, method, &mut values), 0);
    bundle[values[0] as usize..][..2].copy_from_slice(&[3, 0]);
    bundle
}

#[test]
fn resends_of_a_sample() {
    let mut scratch = [0; SCRATCH];
    let bundle = chart_resending(0);
    assert_eq!(check(&bundle, &mut scratch), Verdict::Accepted);
    let answer = run_accepted(&bundle, &mut scratch, 0, [1, 4, 0], 2);
    assert_eq!(answer, AcceptedRun::Value { class: 6, steps: 2 });

    let instruction = 0;
    for (method, arguments, fault, ending) in [
        (2, [1, 3, 0], BodyFault::NoOverridden, Ending::NoOverridden { method: 2, instruction }),
        (3, [2, 4, 0], BodyFault::AmbiguousResend, Ending::AmbiguousResend { method: 3, instruction }),
    ] {
        let bundle = chart_resending(method);
        let finding = Finding::Body(BrokenBody { method, instruction, fault });
        assert_eq!(check(&bundle, &mut scratch), Verdict::Broken(finding));
        assert_eq!(run(&bundle, &mut scratch, 0, arguments, 9), Run::Ended { ending, steps: 0 });
        assert_eq!(run_accepted(&bundle, &mut scratch, 0, arguments, 9), AcceptedRun::NotAccepted(finding));
    }

    // The records of the methods begin where bytes 16 and 17 say; method 2 declares class 4 at its second place.
    let mut bundle = chart_resending(1);
    let methods = u16::from_le_bytes([bundle[16], bundle[17]]) as usize;
    bundle[methods + 2 * 12 + 5] = 4;
    let ending = Ending::NarrowTarget { method: 1, instruction };
    assert_eq!(run(&bundle, &mut scratch, 0, [2, 3, 0], 9), Run::Ended { ending, steps: 0 });
}

#[test]
fn a_broken_tuple_is_its_own_witness() {
    for (name, arguments, rivals) in [("chart-3", [2, 4, 0], [1, 0]), ("three-rivals", [5, 0, 0], [3, 1])] {
        let bundle = sample(name);
        let mut scratch = [0; SCRATCH];
        let sent = Sent { function: 0, arguments };
        let broken = BrokenSignature { signature: 0, sent, fault: Fault::Rivals(rivals) };
        let finding = Finding::Coverage(broken);
        assert_eq!(check(&bundle, &mut scratch), Verdict::Broken(finding), "{name}");
        assert_eq!(witness(&bundle, &mut scratch, 0, arguments), Witness::Broken(broken), "{name}");
        assert_eq!(lookup(&bundle, &mut scratch, 0, arguments), Lookup::Rivals(sent, rivals), "{name}");
        let ending = Ending::Rivals(sent, rivals);
        assert_eq!(run(&bundle, &mut scratch, 0, arguments, 9), Run::Ended { ending, steps: 0 }, "{name}");
        let accepted = run_accepted(&bundle, &mut scratch, 0, arguments, 9);
        assert_eq!(accepted, AcceptedRun::NotAccepted(finding), "{name}");
    }
}

#[test]
fn empty_buffers_are_refused() {
    let bundle = sample("chart-3");
    assert_eq!(open(&[]), Err(Refusal::Length));
    assert_eq!(body(&[], 0), Err(Refusal::Length));
    assert_eq!(check(&[], &mut []), Verdict::Refused(Refusal::Length));
    assert_eq!(check(&bundle, &mut []), Verdict::Refused(Refusal::Scratch));
    assert_eq!(ancestry(&bundle, &mut [], 0, 0), Err(Refusal::Scratch));
    assert_eq!(rough(&bundle, &mut [], 0, [1, 3, 0]), Rough::Refused(Refusal::Scratch));
    assert_eq!(send_type(&bundle, &mut [], &mut [], 0, [1, 3, 0]), SendType::Refused(Refusal::Scratch));
    assert_eq!(send_type(&bundle, &mut [0; SCRATCH], &mut [], 0, [1, 3, 0]), SendType::Refused(Refusal::Row));
    assert_eq!(chart(&bundle, &mut [], &mut [], 0, 0), Chart::Refused(Refusal::Scratch));
    assert_eq!(chart(&bundle, &mut [0; SCRATCH], &mut [], 0, 0), Chart::ShortLine);
}

#[test]
fn short_buffers_are_left_alone_and_long_ones_past_their_part() {
    let bundle = sample("chart-5");
    let mut short = [9; SCRATCH - 1];
    assert_eq!(check(&bundle, &mut short), Verdict::Refused(Refusal::Scratch));
    assert!(short.iter().all(|&byte| byte == 9));
    let mut scratch = [9; SCRATCH + 5];
    let mut row = [9; ROW + 5];
    assert_eq!(send_type(&bundle, &mut scratch, &mut row, 0, [2, 4, 0]), SendType::Typed);
    assert_eq!(scratch[..SCRATCH], chart_matrix());
    assert_eq!(scratch[SCRATCH..], [9; 5]);
    assert!(row[..ROW].iter().all(|&byte| byte < 2));
    assert_eq!(row[ROW..], [9; 5]);
    let mut text = [9; 34];
    assert_eq!(chart(&bundle, &mut scratch, &mut text, 0, 1), Chart::ShortLine);
    assert_eq!(text, [9; 34]);
    let mut text = [9; 40];
    assert_eq!(chart(&bundle, &mut scratch, &mut text, 0, 1), Chart::Line(35));
    assert_eq!(text[34..], [b'\n', 9, 9, 9, 9, 9]);
}

/// The matrix of chart-3, chart-4 and chart-5. Class 2 is under 1, class 4 under 3, classes 6 and 7 are under 5, and all under 0.
fn chart_matrix() -> [u8; SCRATCH] {
    let mut matrix = [0; SCRATCH];
    let above = [0b1, 0b11, 0b111, 0b1001, 0b1_1001, 0b10_0001, 0b110_0001, 0b1010_0001];
    for (class, set) in above.into_iter().enumerate() {
        matrix[16 * class] = set;
    }
    matrix
}

/// 0 and 255 have no bit in common, so a byte that is not written differs from what it should be in one of the two.
#[test]
fn a_scratch_is_written_whole_and_not_past_the_matrix() {
    let mut many = [0; SCRATCH];
    for class in 0..128 {
        many[16 * class] = 1;
        many[16 * class + class / 8] |= 1 << (class % 8);
    }
    for (name, matrix) in [("chart-4", chart_matrix()), ("128-classes", many)] {
        for before in [0x00, 0xff] {
            let mut scratch = [before; 20_000];
            assert_eq!(check(&sample(name), &mut scratch), Verdict::Accepted, "{name}");
            assert_eq!(scratch[..SCRATCH], matrix, "{name}");
            assert!(scratch[SCRATCH..].iter().all(|&byte| byte == before), "{name}");
        }
    }
}

#[test]
fn absent_numbers_are_refused_whatever_their_width() {
    let bundle = sample("chart-4");
    let mut scratch = [0; SCRATCH];
    for number in [8, 128, 256, 65_536, 1 << 32, (1 << 32) + 1, u64::MAX] {
        assert_eq!(body(&bundle, number), Err(Refusal::Absent));
        for (a, b) in [(number, 0), (0, number), (number, number)] {
            assert_eq!(ancestry(&bundle, &mut scratch, a, b), Err(Refusal::Absent));
        }
        assert_eq!(lookup(&bundle, &mut scratch, 0, [1, number, 0]), Lookup::Refused(Refusal::Absent));
        assert_eq!(lookup(&bundle, &mut scratch, number, [1, 3, 0]), Lookup::Refused(Refusal::Absent));
        assert_eq!(lookup(&bundle, &mut scratch, 0, [1, 3, number]), Lookup::Refused(Refusal::Absent));
        assert_eq!(rough(&bundle, &mut scratch, 0, [number, 3, 0]), Rough::Refused(Refusal::Absent));
        assert_eq!(rough(&bundle, &mut scratch, number, [1, 3, 0]), Rough::Refused(Refusal::Absent));
        assert_eq!(rough(&bundle, &mut scratch, 0, [1, 3, number]), Rough::Refused(Refusal::Absent));
        assert_eq!(witness(&bundle, &mut scratch, number, [1, 3, 0]), Witness::Refused(Refusal::Absent));
        assert_eq!(run(&bundle, &mut scratch, number, [1, 3, 0], 1), Run::Refused(Refusal::Absent));
        assert_eq!(chart(&bundle, &mut scratch, &mut [], number, 0), Chart::Refused(Refusal::Absent));
        assert_eq!(chart(&bundle, &mut scratch, &mut [], 0, number), Chart::NoLine);
    }
}

/// Class 4 is under 3, and all classes are under 0.
#[test]
fn ancestry_on_the_samples() {
    let bundle = sample("chart-3");
    let asked = |a, b| ancestry(&bundle, &mut [0; SCRATCH], a, b);
    for class in 0..8 {
        assert_eq!(asked(class, class), Ok(Ancestry::Same));
    }
    for (heir, class) in [(4, 3), (3, 0), (4, 0)] {
        assert_eq!(asked(heir, class), Ok(Ancestry::Heir));
        assert_eq!(asked(class, heir), Ok(Ancestry::Neither));
    }
    assert_eq!((asked(4, 1), asked(1, 4)), (Ok(Ancestry::Neither), Ok(Ancestry::Neither)));
}

fn found(name: &str, arguments: [u64; 3]) -> Lookup {
    lookup(&sample(name), &mut [0; SCRATCH], 0, arguments)
}

#[test]
fn exact_methods_on_the_samples() {
    // Its methods 0 and 1 are for classes 3 and 0, and for 0 and 2. Class 0 is abstract.
    assert_eq!(found("several-broken", [3, 0, 0]), Lookup::Found { method: 0, exact: true });
    assert_eq!(found("several-broken", [3, 1, 0]), Lookup::Found { method: 0, exact: false });
    assert_eq!(found("several-broken", [0, 2, 0]), Lookup::Found { method: 1, exact: true });
    assert_eq!(found("several-broken", [1, 2, 0]), Lookup::Found { method: 1, exact: false });
    // The method declares class 1 and is for class 0.
    assert_eq!(found("narrow-declared", [0, 0, 0]), Lookup::Found { method: 0, exact: true });
    assert_eq!(found("narrow-declared", [1, 0, 0]), Lookup::Found { method: 0, exact: false });
    assert_eq!(found("three-argument-tie", [0, 1, 1]), Lookup::Found { method: 0, exact: true });
    assert_eq!(found("loop", [0; 3]), Lookup::Found { method: 0, exact: true });
}

fn roughly(name: &str, uppers: [u64; 3]) -> Rough {
    rough(&sample(name), &mut [0; SCRATCH], 0, uppers)
}

#[test]
fn rough_answers_on_the_samples() {
    // In chart-4 four methods take classes 1 and 2 with 3 and 4; in chart-3 the one for 2 and 4 is missing.
    assert_eq!(roughly("chart-4", [1, 3, 0]), Rough::Several);
    assert_eq!(roughly("chart-4", [1, 4, 0]), Rough::Several);
    assert_eq!(roughly("chart-4", [2, 4, 0]), Rough::One(3));
    assert_eq!(roughly("chart-3", [1, 3, 0]), Rough::MayFail);
    assert_eq!(roughly("chart-3", [2, 4, 0]), Rough::MayFail);
    assert_eq!(roughly("chart-3", [2, 3, 0]), Rough::MayFail);
    assert_eq!(roughly("chart-3", [6, 7, 0]), Rough::MayFail);
    // Class 0 is abstract, so that a method for the one class under it is enough.
    assert_eq!(roughly("abstract-argument", [0, 0, 0]), Rough::One(0));
    // The method found would refuse class 0 by its declared class.
    assert_eq!(roughly("narrow-declared", [0, 0, 0]), Rough::One(0));
    assert_eq!(roughly("three-argument-tie", [0, 0, 0]), Rough::MayFail);
    assert_eq!(roughly("loop", [0, 0, 0]), Rough::One(0));
}

#[test]
fn a_used_place_needs_a_concrete_class() {
    assert_eq!(roughly("no-concrete-class", [0, 0, 0]), Rough::NoConcrete);
    assert_eq!(roughly("no-concrete-class", [0, 0, 1]), Rough::Refused(Refusal::Absent));
    // Classes 2, 3 and 4 are abstract, and class 5 is under each of them.
    assert_eq!(roughly("three-rivals", [2, 0, 0]), Rough::MayFail);
    // With its one class abstract, the sample has no concrete class, and its function no place for one.
    let mut bundle = sample("loop");
    bundle[24] = 0;
    assert_eq!(rough(&bundle, &mut [0; SCRATCH], 0, [0; 3]), Rough::One(0));
}

/// The chart of function 0, line after line.
fn whole_chart(name: &str) -> String {
    let bundle = sample(name);
    let mut text = [0; LINE];
    let lines = (0..).map_while(|line| match chart(&bundle, &mut [0; SCRATCH], &mut text, 0, line) {
        Chart::Line(length) => Some(String::from_utf8_lossy(&text[..length]).into_owned()),
        Chart::NoLine => None,
        other => panic!("{other:?}"),
    });
    lines.collect()
}

/// The samples have the concrete classes 1, 2, 3, 4, 6 and 7, and methods for the first two with the next two.
#[test]
fn charts_of_the_samples() {
    let with = |lapsed: &str| {
        let lines = [
            "        1    2    3    4    6    7\n",
            "   1    -    -    2    0    -    -\n",
            lapsed,
            "   3    -    -    -    -    -    -\n",
            "   4    -    -    -    -    -    -\n",
            "   6    -    -    -    -    -    -\n",
            "   7    -    -    -    -    -    -\n",
        ];
        lines.concat()
    };
    assert_eq!(whole_chart("chart-3"), with("   2    -    -    1    *    -    -\n"));
    assert_eq!(whole_chart("chart-4"), with("   2    -    -    1    3    -    -\n"));
    assert_eq!(whole_chart("chart-5"), with("   2    -    -    1    3    -    -\n"));
}

#[test]
fn a_chart_is_of_two_arguments() {
    for name in ["loop", "narrow-declared", "three-argument-tie"] {
        assert_eq!(chart(&sample(name), &mut [0; SCRATCH], &mut [], 0, 99), Chart::NotBinary, "{name}");
    }
}

/// Every sample has a file with its listing.
#[test]
fn listings_of_the_samples() {
    let folder = concat!(env!("CARGO_MANIFEST_DIR"), "/../../bundles");
    let mut samples = 0;
    for entry in std::fs::read_dir(folder).expect("the samples are there") {
        let path = entry.expect("the folder can be read").path();
        if path.extension().is_some_and(|extension| extension == "bundle") {
            let bundle = std::fs::read(&path).expect("a sample can be read");
            let expected = std::fs::read_to_string(path.with_extension("listing")).expect("its listing can be read");
            assert_eq!(listing(&bundle, &mut [0; TEXT]), Some(&expected[..]), "{}", path.display());
            samples += 1;
        }
    }
    assert!(samples > 0);
}
