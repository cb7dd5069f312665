//! Bundles that need not open: damaged ones, and ones that break a limit.

use crate::sections::{section, two_bytes, CLASSES, METHODS};
use crate::{generate, long, resends};
use builder::{Parts, Random, NEW};

/// A bundle, and the parts it was made from. Nearly half of the bundles are damaged.
pub fn bundle(random: &mut Random, number: usize) -> (Vec<u8>, Parts) {
    if number % 20 == 9 {
        return long_bundle(random);
    }
    if number % 10 == 4 {
        let parts = resends::parts(random);
        return (parts.bytes(), parts);
    }
    let mut parts = generate::parts(random, number);
    match random.below(24) {
        0..=11 => (parts.bytes(), parts),
        12..=14 => {
            break_rule(&mut parts, random);
            (parts.bytes(), parts)
        }
        15 => {
            plant_twins(&mut parts, random);
            (parts.bytes(), parts)
        }
        16..=17 => (misplaced(parts.bytes(), random), parts),
        18..=19 => {
            let mut bytes = parts.bytes();
            set_field(&mut bytes, &parts, random);
            (bytes, parts)
        }
        20 => {
            let mut bytes = parts.bytes();
            for _ in 0..random.within(1, 4) {
                let at = random.below(bytes.len());
                bytes[at] ^= 1 << random.below(8);
            }
            (bytes, parts)
        }
        21 => (cut(parts.bytes(), random), parts),
        22 => {
            break_limit(&mut parts, random);
            (parts.bytes(), parts)
        }
        _ => (noise(random), parts),
    }
}

/// A long bundle: as it is, with twins, with a list out of its place, or with another rule broken.
fn long_bundle(random: &mut Random) -> (Vec<u8>, Parts) {
    let mut parts = long::parts(random);
    match random.below(4) {
        0 => plant_twins(&mut parts, random),
        1 => return (misplaced(parts.bytes(), random), parts),
        2 => break_rule(&mut parts, random),
        _ => {}
    }
    (parts.bytes(), parts)
}

/// Adds twins of methods: next to these, at either end, or anywhere.
fn plant_twins(parts: &mut Parts, random: &mut Random) {
    for _ in 0..random.of(&[1, 1, 2, 3]) {
        // Where there is no room for one more, the last method gives way.
        parts.methods.truncate(511);
        let count = parts.methods.len();
        if count == 0 {
            return;
        }
        let of = random.below(count);
        let mut twin = parts.methods[of].clone();
        twin.result = random.below(parts.classes.len()) as u8;
        let anywhere = random.below(count + 1);
        parts.methods.insert(random.of(&[0, of + 1, count, anywhere]), twin);
    }
}

/// With the beginning of one list stated a byte or an entry off, or its length an entry, and all else as it was.
fn misplaced(mut bytes: Vec<u8>, random: &mut Random) -> Vec<u8> {
    let listed = random.of(&[CLASSES, METHODS]);
    let count = listed.count(&bytes);
    if count == 0 {
        return bytes;
    }
    let anywhere = random.below(count);
    let record = random.of(&[0, count / 2, count - 1, anywhere]);
    let offset_at = listed.offset_at(&bytes, record);
    let (at, off) =
        if random.once_in(2) { (offset_at, random.within(1, listed.entry)) } else { (offset_at + 2, listed.entry) };
    let stated = two_bytes(&bytes, at);
    let changed = if stated >= off && random.once_in(2) { stated - off } else { stated + off };
    bytes[at..at + 2].copy_from_slice(&(changed as u16).to_le_bytes());
    bytes
}

/// Sets a byte, or two bytes together, of a section to a value at a boundary.
fn set_field(bytes: &mut [u8], parts: &Parts, random: &mut Random) {
    let sections = (0..6).map(|pair| section(bytes, pair)).filter(|range| !range.is_empty());
    let ranges: Vec<_> = std::iter::once(0..24).chain(sections).collect();
    let range = ranges[random.below(ranges.len())].clone();
    let at = range.start + random.below(range.len());
    let counts = [parts.classes.len(), parts.functions.len(), parts.signatures.len(), parts.methods.len()];
    let count = random.of(&counts);
    let old = bytes[at];
    if random.once_in(4) && at + 1 < bytes.len() {
        let two = u16::from_le_bytes([old, bytes[at + 1]]);
        let changed = random.of(&[0, 1, 2, two.wrapping_sub(1), two.wrapping_add(1), two.wrapping_add(2), u16::MAX]);
        bytes[at..at + 2].copy_from_slice(&changed.to_le_bytes());
        return;
    }
    let near = [old.wrapping_sub(1), old.wrapping_add(1), old.wrapping_add(2), count.wrapping_sub(1) as u8];
    let fixed = [0, 1, 2, 3, 4, 127, 128, 255, count as u8, (count + 1) as u8];
    bytes[at] = if random.once_in(2) { random.of(&near) } else { random.of(&fixed) };
}

/// Another length: cut, or with bytes after the end; sometimes past the greatest length.
fn cut(mut bytes: Vec<u8>, random: &mut Random) -> Vec<u8> {
    match random.below(8) {
        0 => bytes.truncate(random.below(25)),
        1..=3 => bytes.truncate(random.below(bytes.len())),
        4 => bytes.truncate(bytes.len() - 1),
        5 => bytes.resize(random.of(&[65_535, 65_536, 65_537, 70_000]), 0),
        _ => bytes.extend((0..random.within(1, 12)).map(|_| 0)),
    }
    bytes
}

/// Random bytes, with or without a directory that fits them.
fn noise(random: &mut Random) -> Vec<u8> {
    if random.once_in(4) {
        return (0..random.below(200)).map(|_| random.byte()).collect();
    }
    let mut bytes = Vec::new();
    let records = [6, 1, 1, 5, 12, 2];
    let mut offset = 24;
    let whole = !random.once_in(6);
    for record in records {
        let length = if whole { record * random.below(5) } else { random.below(30) };
        bytes.extend((offset as u16).to_le_bytes());
        bytes.extend((length as u16).to_le_bytes());
        offset += length;
    }
    let small = random.within(1, 6);
    while bytes.len() < offset {
        bytes.push(random.below(small) as u8);
    }
    bytes
}

/// Breaks a rule of a record in a way that random bytes seldom do.
fn break_rule(parts: &mut Parts, random: &mut Random) {
    let classes = parts.classes.len();
    let class = random.below(classes);
    let absent = random.of(&[classes as u8, 255, classes.wrapping_add(1) as u8]);
    match random.below(14) {
        0 => parts.classes[0].parents.push(random.below(2) as u8),
        1 => parts.classes[class].parents.clear(),
        2 => parts.classes[class].parents.push(class as u8),
        3 => {
            let parents = &mut parts.classes[class].parents;
            match parents.last().copied() {
                Some(last) if random.once_in(2) => parents.push(last),
                _ => parents.reverse(),
            }
        }
        4 if !parts.functions.is_empty() => {
            let function = random.below(parts.functions.len());
            parts.functions[function] = random.of(&[4, 5, 128, 255]);
        }
        5 if !parts.functions.is_empty() => {
            // Places that were used are unused now, or the other way round.
            let function = random.below(parts.functions.len());
            parts.functions[function] = random.below(4) as u8;
        }
        6..=7 if !parts.signatures.is_empty() => {
            let at = random.below(parts.signatures.len());
            let signature = &mut parts.signatures[at];
            match random.below(3) {
                0 => signature.function = random.of(&[parts.functions.len() as u8, 64, 255]),
                1 => signature.arguments[random.below(3)] = absent,
                _ => signature.result = absent,
            }
        }
        _ if parts.methods.is_empty() => {}
        8..=10 => {
            let at = random.below(parts.methods.len());
            let method = &mut parts.methods[at];
            match random.below(7) {
                0 => method.function = random.of(&[parts.functions.len() as u8, 64, 255]),
                1 => method.specialisers[random.below(3)] = absent,
                2 => method.declared[random.below(3)] = absent,
                3 => method.declared[2] = 1,
                4 => method.result = absent,
                5 => method.body.clear(),
                _ => method.body = vec![[NEW, 0]; random.of(&[64, 65, 66, 127, 128])],
            }
        }
        _ => {
            let at = random.below(parts.methods.len());
            let place = random.below(parts.methods[at].body.len());
            let arguments = parts.functions[parts.methods[at].function as usize];
            let operands = [(0, arguments), (0, 3), (1, absent), (2, parts.functions.len() as u8), (3, 1), (3, 255)];
            let instruction = match random.below(8) {
                0 => [4, 0],
                1 => [255, 0],
                _ => random.of(&operands).into(),
            };
            parts.methods[at].body[place] = instruction;
        }
    }
}

/// Passes a limit, or just keeps it.
fn break_limit(parts: &mut Parts, random: &mut Random) {
    let over = random.below(2);
    match random.below(6) {
        0 => {
            while parts.classes.len() < 128 + over {
                parts.class(random.once_in(2), &[0]);
            }
            parts.signatures.clear();
        }
        1 => {
            while parts.functions.len() < 64 + over {
                parts.function(random.below(4) as u8);
            }
        }
        2 => {
            while parts.signatures.len() < 256 + over {
                let function = random.below(parts.functions.len().max(1)) as u8;
                parts.signature(function, [0; 3], 0);
            }
            parts.functions.iter_mut().for_each(|arguments| *arguments = (*arguments).min(1));
            parts.methods.clear();
        }
        3 => {
            // Methods of one function with three places, all with different specialisers.
            *parts = Parts::default();
            for number in 0..10 {
                parts.class(true, if number == 0 { &[] } else { &[0] });
            }
            let function = parts.function(3);
            parts.signature(function, [0; 3], 0);
            for number in 0..(512 + over) as u16 {
                let specialisers = [number / 100, number / 10 % 10, number % 10].map(|digit| digit as u8);
                parts.method(function, specialisers, 0, &[[NEW, specialisers[2]]]);
            }
        }
        4 => {
            *parts = Parts::default();
            if over == 1 {
                parts.function(random.below(4) as u8);
            }
        }
        _ => {
            // More code than a bundle has room for, or just room enough: with 467 methods it has 65,460 bytes, with 468 too many.
            *parts = Parts::default();
            for number in 0..8 {
                parts.class(true, if number == 0 { &[] } else { &[0] });
            }
            let function = parts.function(3);
            for number in 0..(467 + over) as u16 {
                let specialisers = [number >> 6, number >> 3 & 7, number & 7].map(|digit| digit as u8);
                parts.method(function, specialisers, 0, &[[NEW, 1]; 64]);
            }
        }
    }
}
