//! The bundle: opening, with the numbers 1 to 9, and the tables of an opened bundle.

use crate::Triple;

pub struct Class {
    pub concrete: bool,
    pub parents: Vec<usize>,
}

pub struct Signature {
    pub function: usize,
    pub arguments: Triple,
    pub result: usize,
}

pub struct Method {
    pub function: usize,
    pub specialisers: Triple,
    pub declared: Triple,
    pub result: usize,
    /// Where the code begins, counted from the bundle's first byte.
    pub code_start: usize,
    pub body: Vec<Instruction>,
}

#[derive(Clone, Copy)]
pub enum Instruction {
    Arg(usize),
    New(usize),
    Send(usize),
    Resend,
}

pub struct Bundle {
    pub classes: Vec<Class>,
    /// For each function its argument count.
    pub functions: Vec<usize>,
    pub signatures: Vec<Signature>,
    pub methods: Vec<Method>,
}

/// A refusal by one of the numbers 1 to 9; 4 to 9 name a record.
pub struct Broken {
    pub number: u8,
    pub record: Option<usize>,
}

impl Broken {
    fn whole(number: u8) -> Broken {
        Broken { number, record: None }
    }

    fn record(number: u8, record: usize) -> Broken {
        Broken { number, record: Some(record) }
    }
}

/// The bytes of the six sections, and where the code begins in the bundle.
struct Sections<'a> {
    classes: &'a [u8],
    parents: &'a [u8],
    functions: &'a [u8],
    signatures: &'a [u8],
    methods: &'a [u8],
    code: &'a [u8],
    code_start: usize,
}

const CLASS: usize = 6;
const SIGNATURE: usize = 5;
const METHOD: usize = 12;

impl Bundle {
    /// Opens a bundle. Each number is tried for all its records before the next number.
    pub fn open(bytes: &[u8]) -> Result<Bundle, Broken> {
        if bytes.len() < 24 || bytes.len() > 65_535 {
            return Err(Broken::whole(1));
        }
        let sections = sections(bytes).ok_or(Broken::whole(2))?;
        if !within_limits(&sections) {
            return Err(Broken::whole(3));
        }
        let mut bundle = Bundle {
            classes: classes(&sections).map_err(|record| Broken::record(4, record))?,
            functions: functions(&sections).map_err(|record| Broken::record(5, record))?,
            signatures: Vec::new(),
            methods: Vec::new(),
        };
        bundle.signatures = signatures(&sections, &bundle).map_err(|record| Broken::record(6, record))?;
        let records = method_records(&sections, &bundle).map_err(|record| Broken::record(7, record))?;
        if let Some(later) = (0..records.len()).find(|&m| has_earlier_twin(&records, m)) {
            return Err(Broken::record(8, later));
        }
        for (number, record) in records.into_iter().enumerate() {
            let body = body(&record, &bundle).ok_or(Broken::record(9, number))?;
            bundle.methods.push(Method { body, ..record.method });
        }
        Ok(bundle)
    }

    /// Whether each used place names a class of the bundle, and each unused place holds 0.
    pub fn lawful_places(&self, function: usize, triple: Triple) -> bool {
        let (used, unused) = triple.split_at(self.functions[function]);
        used.iter().all(|&class| class < self.classes.len()) && unused.iter().all(|&class| class == 0)
    }
}

fn two_bytes(bytes: &[u8], at: usize) -> usize {
    bytes[at] as usize + 256 * bytes[at + 1] as usize
}

/// The six sections, where the directory is right and the records are whole: else number 2.
fn sections(bytes: &[u8]) -> Option<Sections<'_>> {
    let mut parts: [&[u8]; 6] = [&[]; 6];
    let mut end = 24;
    for (pair, part) in parts.iter_mut().enumerate() {
        let offset = two_bytes(bytes, 4 * pair);
        let length = two_bytes(bytes, 4 * pair + 2);
        if offset != end || offset + length > bytes.len() {
            return None;
        }
        *part = &bytes[offset..offset + length];
        end = offset + length;
    }
    let [classes, parents, functions, signatures, methods, code] = parts;
    let whole = classes.len().is_multiple_of(CLASS)
        && signatures.len().is_multiple_of(SIGNATURE)
        && methods.len().is_multiple_of(METHOD)
        && code.len().is_multiple_of(2)
        && (code.is_empty() || !methods.is_empty());
    if end != bytes.len() || !whole {
        return None;
    }
    let code_start = bytes.len() - code.len();
    Some(Sections { classes, parents, functions, signatures, methods, code, code_start })
}

fn within_limits(sections: &Sections) -> bool {
    let classes = sections.classes.len() / CLASS;
    (1..=128).contains(&classes)
        && sections.functions.len() <= 64
        && sections.signatures.len() / SIGNATURE <= 256
        && sections.methods.len() / METHOD <= 512
}

/// The classes, or the lowest record that breaks its rule. Lists lie in class order without gaps; what the lists leave
/// over of the section is put to the last record.
fn classes(sections: &Sections) -> Result<Vec<Class>, usize> {
    let mut classes = Vec::new();
    let mut end = 0;
    for (number, record) in sections.classes.chunks(CLASS).enumerate() {
        let offset = two_bytes(record, 2);
        let length = two_bytes(record, 4);
        if record[0] > 1 || record[1] != 0 || offset != end || offset + length > sections.parents.len() {
            return Err(number);
        }
        let parents: Vec<usize> = sections.parents[offset..offset + length].iter().map(|&p| p as usize).collect();
        let lower = parents.iter().all(|&parent| parent < number);
        let rising = parents.windows(2).all(|pair| pair[0] < pair[1]);
        let right_length = parents.is_empty() == (number == 0);
        if !lower || !rising || !right_length {
            return Err(number);
        }
        end = offset + length;
        classes.push(Class { concrete: record[0] == 1, parents });
    }
    if end != sections.parents.len() {
        return Err(classes.len() - 1);
    }
    Ok(classes)
}

fn functions(sections: &Sections) -> Result<Vec<usize>, usize> {
    match sections.functions.iter().position(|&count| count > 3) {
        Some(broken) => Err(broken),
        None => Ok(sections.functions.iter().map(|&count| count as usize).collect()),
    }
}

fn signatures(sections: &Sections, bundle: &Bundle) -> Result<Vec<Signature>, usize> {
    let mut signatures = Vec::new();
    for (number, record) in sections.signatures.chunks(SIGNATURE).enumerate() {
        let function = record[0] as usize;
        let arguments = triple(&record[1..4]);
        let result = record[4] as usize;
        let lawful = function < bundle.functions.len()
            && bundle.lawful_places(function, arguments)
            && result < bundle.classes.len();
        if !lawful {
            return Err(number);
        }
        signatures.push(Signature { function, arguments, result });
    }
    Ok(signatures)
}

/// A method whose record is lawful, with the bytes of its body still to be read.
struct MethodRecord<'a> {
    method: Method,
    code: &'a [u8],
}

fn method_records<'a>(sections: &Sections<'a>, bundle: &Bundle) -> Result<Vec<MethodRecord<'a>>, usize> {
    let mut records = Vec::new();
    let mut end = 0;
    for (number, record) in sections.methods.chunks(METHOD).enumerate() {
        let function = record[0] as usize;
        let specialisers = triple(&record[1..4]);
        let declared = triple(&record[4..7]);
        let result = record[7] as usize;
        let offset = two_bytes(record, 8);
        let length = two_bytes(record, 10);
        let lawful = function < bundle.functions.len()
            && bundle.lawful_places(function, specialisers)
            && bundle.lawful_places(function, declared)
            && result < bundle.classes.len()
            && offset == end
            && (2..=128).contains(&length)
            && length.is_multiple_of(2)
            && offset + length <= sections.code.len();
        if !lawful {
            return Err(number);
        }
        end = offset + length;
        let code_start = sections.code_start + offset;
        records.push(MethodRecord {
            method: Method { function, specialisers, declared, result, code_start, body: Vec::new() },
            code: &sections.code[offset..end],
        });
    }
    if end != sections.code.len() {
        return Err(records.len() - 1);
    }
    Ok(records)
}

fn has_earlier_twin(records: &[MethodRecord], later: usize) -> bool {
    let twin = &records[later].method;
    records[..later]
        .iter()
        .any(|earlier| earlier.method.function == twin.function && earlier.method.specialisers == twin.specialisers)
}

/// The instructions of a body, where each operation and each operand is known: else number 9.
fn body(record: &MethodRecord, bundle: &Bundle) -> Option<Vec<Instruction>> {
    let arguments = bundle.functions[record.method.function];
    record
        .code
        .chunks(2)
        .map(|pair| {
            let operand = pair[1] as usize;
            match pair[0] {
                0 if operand < arguments => Some(Instruction::Arg(operand)),
                1 if operand < bundle.classes.len() => Some(Instruction::New(operand)),
                2 if operand < bundle.functions.len() => Some(Instruction::Send(operand)),
                3 if operand == 0 => Some(Instruction::Resend),
                _ => None,
            }
        })
        .collect()
}

fn triple(bytes: &[u8]) -> Triple {
    [bytes[0] as usize, bytes[1] as usize, bytes[2] as usize]
}
