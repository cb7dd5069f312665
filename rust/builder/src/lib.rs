//! Bundles from their records, and a small generator of numbers with fixed seeds. For tests and benchmarks.

mod charts;
mod random;

pub use charts::{chart_3, chart_4, chart_5, looping, three_rivals, tree, widest_chart};
pub use random::Random;

/// Operation of an instruction.
pub const ARG: u8 = 0;
/// Operation of an instruction.
pub const NEW: u8 = 1;
/// Operation of an instruction.
pub const SEND: u8 = 2;
/// Operation of an instruction, whose operand is 0.
pub const RESEND: u8 = 3;

/// A class: whether it is concrete, and its parents.
#[derive(Clone, Debug)]
pub struct Class {
    pub concrete: bool,
    pub parents: Vec<u8>,
}

/// A signature of a function.
#[derive(Clone, Debug)]
pub struct Signature {
    pub function: u8,
    pub arguments: [u8; 3],
    pub result: u8,
}

/// A method of a function. The body's instructions are pairs of operation and operand.
#[derive(Clone, Debug)]
pub struct Method {
    pub function: u8,
    pub specialisers: [u8; 3],
    pub declared: [u8; 3],
    pub result: u8,
    pub body: Vec<[u8; 2]>,
}

/// The records of a bundle. Nothing makes them lawful.
#[derive(Clone, Debug, Default)]
pub struct Parts {
    pub classes: Vec<Class>,
    /// For each function its argument count.
    pub functions: Vec<u8>,
    pub signatures: Vec<Signature>,
    pub methods: Vec<Method>,
}

impl Parts {
    /// Adds a class and gives its number.
    pub fn class(&mut self, concrete: bool, parents: &[u8]) -> u8 {
        self.classes.push(Class { concrete, parents: parents.to_vec() });
        (self.classes.len() - 1) as u8
    }

    /// Adds a function and gives its number.
    pub fn function(&mut self, arguments: u8) -> u8 {
        self.functions.push(arguments);
        (self.functions.len() - 1) as u8
    }

    /// Adds a signature.
    pub fn signature(&mut self, function: u8, arguments: [u8; 3], result: u8) {
        self.signatures.push(Signature { function, arguments, result });
    }

    /// Adds a method whose declared classes are its specialisers.
    pub fn method(&mut self, function: u8, specialisers: [u8; 3], result: u8, body: &[[u8; 2]]) {
        self.methods.push(Method { function, specialisers, declared: specialisers, result, body: body.to_vec() });
    }

    /// The bundle's bytes. An offset or a length that passes 65,535 is cut to two bytes, which makes a damaged bundle.
    pub fn bytes(&self) -> Vec<u8> {
        let mut sections: [Vec<u8>; 6] = Default::default();
        for class in &self.classes {
            let offset = sections[1].len();
            sections[0].extend([class.concrete as u8, 0]);
            sections[0].extend(two_bytes(offset));
            sections[0].extend(two_bytes(class.parents.len()));
            sections[1].extend(&class.parents);
        }
        sections[2].extend(&self.functions);
        for signature in &self.signatures {
            sections[3].push(signature.function);
            sections[3].extend(signature.arguments);
            sections[3].push(signature.result);
        }
        for method in &self.methods {
            let offset = sections[5].len();
            sections[4].push(method.function);
            sections[4].extend(method.specialisers);
            sections[4].extend(method.declared);
            sections[4].push(method.result);
            sections[4].extend(two_bytes(offset));
            sections[4].extend(two_bytes(2 * method.body.len()));
            sections[5].extend(method.body.iter().flatten());
        }
        let mut bytes = Vec::new();
        let mut offset = 24;
        for section in &sections {
            bytes.extend(two_bytes(offset));
            bytes.extend(two_bytes(section.len()));
            offset += section.len();
        }
        bytes.extend(sections.concat());
        bytes
    }
}

fn two_bytes(number: usize) -> [u8; 2] {
    (number as u16).to_le_bytes()
}

/// Into how many buckets the library puts methods to look for twins.
pub const BUCKETS: usize = 521;

/// The bucket of a method by its key, which is its function and its three specialisers. Twins have one key.
pub fn bucket(key: [u8; 4]) -> usize {
    u32::from_le_bytes(key) as usize % BUCKETS
}

/// The bytes as a word of hexadecimal digits.
pub fn hex(bytes: &[u8]) -> String {
    bytes.iter().map(|byte| format!("{byte:02x}")).collect()
}
