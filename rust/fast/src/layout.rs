//! Opening, without copying a record.

use crate::Broken;

/// An opened bundle: the sections, and each class's ancestors.
pub struct Tables<'a> {
    pub classes: usize,
    /// The concrete classes.
    pub concrete: u128,
    /// For each class the set of classes it is under; of an absent class, the empty set.
    pub ancestors: [u128; 128],
    /// For each class where its parents begin and end in `parents`.
    pub lists: [(u16, u16); 128],
    pub parents: &'a [u8],
    pub functions: &'a [u8],
    pub signatures: &'a [[u8; 5]],
    pub methods: &'a [[u8; 12]],
    pub code: &'a [u8],
}

impl<'a> Tables<'a> {
    pub fn open(bytes: &'a [u8]) -> Result<Tables<'a>, Broken> {
        if bytes.len() < 24 || bytes.len() > 65_535 {
            return Err(Broken::new(1, &[]));
        }
        let [classes, parents, functions, signatures, methods, code] = sections(bytes)?;
        let (classes, rest_0) = classes.as_chunks::<6>();
        let (signatures, rest_1) = signatures.as_chunks::<5>();
        let (methods, rest_2) = methods.as_chunks::<12>();
        let part = !rest_0.is_empty() || !rest_1.is_empty() || !rest_2.is_empty();
        if part || !code.len().is_multiple_of(2) || (methods.is_empty() && !code.is_empty()) {
            return Err(Broken::new(2, &[]));
        }
        let many = classes.len() > 128 || functions.len() > 64 || signatures.len() > 256 || methods.len() > 512;
        if many || classes.is_empty() {
            return Err(Broken::new(3, &[]));
        }
        let mut tables = Tables {
            classes: classes.len(),
            concrete: 0,
            ancestors: [0; 128],
            lists: [(0, 0); 128],
            parents,
            functions,
            signatures,
            methods,
            code,
        };
        tables.read_classes(classes)?;
        tables.check_functions()?;
        tables.check_signatures()?;
        tables.check_methods()?;
        tables.check_twins()?;
        tables.check_operands()?;
        Ok(tables)
    }

    pub fn counts(&self) -> [u64; 4] {
        [self.classes, self.functions.len(), self.signatures.len(), self.methods.len()].map(|count| count as u64)
    }

    /// The body of a method, as pairs of operation and operand.
    pub fn body(&self, method: &[u8; 12]) -> &'a [[u8; 2]] {
        let start = two_bytes(method, 8);
        let (body, _) = self.code[start..start + two_bytes(method, 10)].as_chunks::<2>();
        body
    }

    pub fn under(&self, a: u8, b: u8) -> bool {
        self.ancestors[a as usize & 127] >> (b & 127) & 1 == 1
    }

    fn read_classes(&mut self, classes: &[[u8; 6]]) -> Result<(), Broken> {
        let mut end = 0;
        for (number, record) in classes.iter().enumerate() {
            let broken = Err(Broken::new(4, &[number as u64]));
            let offset = two_bytes(record, 2);
            let next = offset + two_bytes(record, 4);
            if record[0] > 1 || record[1] != 0 || offset != end || next > self.parents.len() {
                return broken;
            }
            if (next == offset) != (number == 0) {
                return broken;
            }
            let mut ancestors = 1 << number;
            let mut least = 0;
            for &parent in &self.parents[offset..next] {
                if (parent as usize) < least || parent as usize >= number {
                    return broken;
                }
                least = parent as usize + 1;
                ancestors |= self.ancestors[parent as usize];
            }
            self.ancestors[number] = ancestors;
            self.lists[number] = (offset as u16, next as u16);
            self.concrete |= (record[0] as u128) << number;
            end = next;
        }
        if end != self.parents.len() {
            return Err(Broken::new(4, &[classes.len() as u64 - 1]));
        }
        Ok(())
    }

    fn check_functions(&self) -> Result<(), Broken> {
        match self.functions.iter().position(|&arguments| arguments > 3) {
            Some(function) => Err(Broken::new(5, &[function as u64])),
            None => Ok(()),
        }
    }

    /// Whether the used places name classes and the others hold 0.
    pub fn lawful(&self, arguments: u8, places: [u8; 3]) -> bool {
        let n = self.classes as u8;
        let bound = [[1, 1, 1], [n, 1, 1], [n, n, 1], [n, n, n]][arguments as usize];
        places[0] < bound[0] && places[1] < bound[1] && places[2] < bound[2]
    }

    fn check_signatures(&self) -> Result<(), Broken> {
        for (number, &[function, a, b, c, result]) in self.signatures.iter().enumerate() {
            let lawful = match self.functions.get(function as usize) {
                Some(&arguments) => self.lawful(arguments, [a, b, c]) && (result as usize) < self.classes,
                None => false,
            };
            if !lawful {
                return Err(Broken::new(6, &[number as u64]));
            }
        }
        Ok(())
    }

    fn check_methods(&self) -> Result<(), Broken> {
        let mut end = 0;
        for (number, record) in self.methods.iter().enumerate() {
            let &[function, a, b, c, d, e, f, result, ..] = record;
            let offset = two_bytes(record, 8);
            let length = two_bytes(record, 10);
            let lawful = match self.functions.get(function as usize) {
                Some(&arguments) => {
                    self.lawful(arguments, [a, b, c])
                        && self.lawful(arguments, [d, e, f])
                        && (result as usize) < self.classes
                        && offset == end
                        && (2..=128).contains(&length)
                        && length.is_multiple_of(2)
                        && offset + length <= self.code.len()
                }
                None => false,
            };
            if !lawful {
                return Err(Broken::new(7, &[number as u64]));
            }
            end = offset + length;
        }
        if end != self.code.len() {
            return Err(Broken::new(7, &[self.methods.len() as u64 - 1]));
        }
        Ok(())
    }

    /// Puts each method's function and specialisers into a hash table; the first that is there already has a twin.
    fn check_twins(&self) -> Result<(), Broken> {
        const SLOTS: usize = 2048;
        let mut table = [0u16; SLOTS];
        for (number, record) in self.methods.iter().enumerate() {
            let key = [record[0], record[1], record[2], record[3]];
            let mut slot = (u32::from_le_bytes(key).wrapping_mul(0x9e37_79b1) >> 21) as usize;
            loop {
                let entry = table[slot % SLOTS];
                if entry == 0 {
                    table[slot % SLOTS] = number as u16 + 1;
                    break;
                }
                if self.methods[entry as usize - 1][..4] == key {
                    return Err(Broken::new(8, &[number as u64]));
                }
                slot += 1;
            }
        }
        Ok(())
    }

    fn check_operands(&self) -> Result<(), Broken> {
        let mut bounds = [0u8; 256];
        bounds[1] = self.classes as u8;
        bounds[2] = self.functions.len() as u8;
        // A resend has the operand 0.
        bounds[3] = 1;
        for (number, record) in self.methods.iter().enumerate() {
            bounds[0] = self.functions[record[0] as usize];
            if self.body(record).iter().any(|&[operation, operand]| operand >= bounds[operation as usize]) {
                return Err(Broken::new(9, &[number as u64]));
            }
        }
        Ok(())
    }
}

/// The six sections, each of which begins where the last one ends.
fn sections(bytes: &[u8]) -> Result<[&[u8]; 6], Broken> {
    let mut parts: [&[u8]; 6] = [&[]; 6];
    let mut end = 24;
    for (pair, part) in parts.iter_mut().enumerate() {
        let offset = two_bytes(bytes, 4 * pair);
        let next = offset + two_bytes(bytes, 4 * pair + 2);
        if offset != end || next > bytes.len() {
            return Err(Broken::new(2, &[]));
        }
        *part = &bytes[offset..next];
        end = next;
    }
    if end != bytes.len() {
        return Err(Broken::new(2, &[]));
    }
    Ok(parts)
}

fn two_bytes(bytes: &[u8], at: usize) -> usize {
    u16::from_le_bytes([bytes[at], bytes[at + 1]]) as usize
}
