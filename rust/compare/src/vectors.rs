//! Cases with expected answers: files of one JSON object a line, each a bundle with an answer or with calls.

use crate::calls::{Buffers, Call};
use crate::json::Json;
use curiumtoad::raw;
use std::path::Path;
use std::process::ExitCode;

/// The files and the call that each is about; the fields of a case name the call where there are several.
const FILES: [&str; 10] =
    ["opening", "check", "lookup", "witness", "sendtype", "run", "view", "chart", "rough", "scratch"];

/// What the lent buffers are filled with before a call, which is made once for each. They have no bit in common, so a byte that
/// should be written and is not differs from what it should be in one of the two.
const FILLERS: [u8; 2] = [0x00, 0xff];

/// Holds the implementations to the files of a folder, which has one or more of them.
pub fn compare(folder: &Path) -> ExitCode {
    let mut counts = Counts::default();
    let present: Vec<_> = FILES.into_iter().filter(|file| folder.join(file).with_extension("jsonl").exists()).collect();
    if present.is_empty() {
        eprintln!("{}: no vectors", folder.display());
        return ExitCode::from(2);
    }
    for file in present {
        let path = folder.join(file).with_extension("jsonl");
        let text = match std::fs::read_to_string(&path) {
            Ok(text) => text,
            Err(error) => {
                eprintln!("{}: {error}", path.display());
                return ExitCode::from(2);
            }
        };
        for (number, line) in text.lines().enumerate() {
            if case(file, line, &mut counts).is_none() {
                counts.wrong += 1;
                println!("{file} line {}: not a case", number + 1);
            }
        }
    }
    println!("{} calls of the vectors, {} wrong", counts.calls, counts.wrong);
    if counts.wrong == 0 {
        ExitCode::SUCCESS
    } else {
        ExitCode::FAILURE
    }
}

#[derive(Default)]
struct Counts {
    calls: usize,
    wrong: usize,
}

fn case(file: &str, line: &str, counts: &mut Counts) -> Option<()> {
    let case = Json::read(line)?;
    let bundle = bytes(case.get("bundle")?.word()?)?;
    match file {
        "opening" => made(&bundle, &Call::Open, &case, counts),
        "check" => made(&bundle, &Call::Check, &case, counts),
        _ => {
            for one in case.get("calls")?.list()? {
                made(&bundle, &call(one)?, one, counts)?;
            }
            Some(())
        }
    }
}

/// The call that a case names.
fn call(case: &Json) -> Option<Call> {
    let Json::Object(fields) = case else { return None };
    let (name, numbers) = fields.first()?;
    let n = numbers.numbers()?;
    Some(match (name.as_str(), n.len()) {
        ("ancestry", 2) => Call::Ancestry(n[0], n[1]),
        ("lookup", 4) => Call::Lookup(n[0], [n[1], n[2], n[3]]),
        ("witness", 4) => Call::Witness(n[0], [n[1], n[2], n[3]]),
        ("sendtype", 4) => Call::SendType(n[0], [n[1], n[2], n[3]]),
        ("run", 5) => Call::Run(n[0], [n[1], n[2], n[3]], u32::try_from(n[4]).ok()?),
        ("view", 1) => Call::Body(n[0]),
        ("rough", 4) => Call::Rough(n[0], [n[1], n[2], n[3]]),
        ("chart", 3) => Call::Chart(n[0], n[1], usize::try_from(n[2]).ok()?),
        // With the length of the scratch.
        ("check", 1) => Call::Check,
        _ => return None,
    })
}

/// Makes a call by the implementations that have it and holds each to the expected answer.
fn made(bundle: &[u8], call: &Call, case: &Json, counts: &mut Counts) -> Option<()> {
    let expected = expected(call, case.get("answer")?)?;
    type Maker = fn(&Call, &[u8], Buffers, &mut raw::Values) -> Option<u8>;
    let makers: [(&str, Maker); 3] = [
        ("plain", |call, bundle, buffers, values| {
            let reply = call.by_plain(bundle, buffers);
            *values = reply.values;
            Some(reply.number)
        }),
        ("the library", |call, bundle, buffers, values| Some(call.by_library(bundle, buffers, values))),
        ("fast", Call::by_fast),
    ];
    for filler in FILLERS {
        let before = Lent::filled(filler, call, case)?;
        let left = before.clone().after(case, expected.0)?;
        for (who, make) in makers {
            let (mut lent, mut values) = (before.clone(), [7; 8]);
            let buffers: Buffers = [&mut lent.scratch, &mut lent.row, &mut lent.text];
            let Some(number) = make(call, bundle, buffers, &mut values) else {
                continue;
            };
            let said = (number, values);
            counts.calls += 1;
            let different = lent.different(&left, case);
            if said != expected || !different.is_empty() {
                counts.wrong += 1;
                println!("{call:?} with {} bytes of scratch: {who} gives {said:?}", lent.scratch.len());
                println!("  expected {expected:?}; other bytes than expected in {different:?}");
                println!("  bundle {}", builder::hex(bundle));
            }
        }
    }
    Some(())
}

/// The buffers that a call is lent.
#[derive(Clone)]
struct Lent {
    scratch: Vec<u8>,
    row: [u8; plain::ROW],
    text: Vec<u8>,
}

impl Lent {
    fn filled(filler: u8, call: &Call, case: &Json) -> Option<Lent> {
        let scratch = match case.get("check") {
            Some(length) => *length.numbers()?.first()? as usize,
            None => plain::SCRATCH,
        };
        Some(Lent { scratch: vec![filler; scratch], row: [filler; plain::ROW], text: vec![filler; call.text_length()] })
    }

    /// What a call with this number has to leave, as far as the case names it.
    fn after(mut self, case: &Json, number: u8) -> Option<Lent> {
        match case.get("scratch") {
            None | Some(Json::Null) => {}
            Some(bytes) => {
                let matrix = self.scratch.get_mut(..plain::SCRATCH)?;
                matrix.fill(0);
                for byte in bytes.list()? {
                    let [at, value] = byte.numbers()?.try_into().ok()?;
                    *matrix.get_mut(at as usize)? = u8::try_from(value).ok()?;
                }
            }
        }
        if let (0, Some(row)) = (number, case.get("row")) {
            let inside = row.numbers()?;
            self.row = std::array::from_fn(|class| inside.contains(&(class as u64)) as u8);
        }
        if let (0, Some(line)) = (number, case.get("line")) {
            let line = line.word()?.as_bytes();
            self.text.get_mut(..line.len())?.copy_from_slice(line);
        }
        Some(self)
    }

    /// The buffers that are not as they have to be left; of the scratch, only a case that names its bytes says how.
    fn different(&self, left: &Lent, case: &Json) -> Vec<&'static str> {
        let scratch = case.get("scratch").is_some() && self.scratch != left.scratch;
        let different = [("scratch", scratch), ("row", self.row != left.row), ("text", self.text != left.text)];
        different.into_iter().filter(|(_, different)| *different).map(|(name, _)| name).collect()
    }
}

/// The number and the values of an expected answer.
fn expected(call: &Call, answer: &Json) -> Option<(u8, [u64; 8])> {
    let number = answer.get("number")?.number()? as u8;
    let field = |name: &str| answer.get(name).and_then(Json::number);
    let mut values = Vec::new();
    match number {
        0 => match call {
            Call::Open => values = answer.get("values")?.numbers()?,
            Call::Ancestry(..) => values.push(match answer.get("answer")?.word()? {
                "neither" => 0,
                "same" => 1,
                "heir" => 2,
                _ => return None,
            }),
            Call::Lookup(..) => values.extend([field("method")?, answer.get("exact")?.truth()? as u64]),
            Call::Body(..) => values.extend([field("start")?, field("length")?]),
            Call::Chart(..) => values.push(field("length")?),
            Call::Rough(..) => match answer.get("answer")?.word()? {
                "one" => values.extend([0, field("method")?]),
                "may fail" => values.push(1),
                "several" => values.push(2),
                _ => return None,
            },
            Call::Run(..) => match answer.get("end")?.word()? {
                "value" => values.extend([0, field("class")?]),
                "spent" => values.push(1),
                "deep" => values.push(2),
                _ => return None,
            },
            _ => {}
        },
        10..=13 => {
            values.extend(field("signature"));
            values.push(field("function")?);
            values.extend(answer.get("tuple")?.numbers()?);
            values.extend(answer.get("methods")?.numbers()?);
        }
        14 | 15 | 17 | 25..=27 => values.extend([field("method")?, field("instruction")?]),
        16 if matches!(call, Call::Check) => values.extend([field("method")?, field("instruction")?]),
        _ => values = answer.get("values")?.numbers()?,
    }
    values.resize(8, 0);
    if matches!(call, Call::Run(..)) {
        values[7] = field("steps").unwrap_or(0);
    }
    Some((number, values.try_into().ok()?))
}

fn bytes(hex: &str) -> Option<Vec<u8>> {
    (0..hex.len()).step_by(2).map(|at| u8::from_str_radix(hex.get(at..at + 2)?, 16).ok()).collect()
}
