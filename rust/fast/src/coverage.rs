//! Coverage, rough answers and where resends go, with sets of methods as words of bits.

use crate::layout::Tables;
use crate::Broken;

/// A set of up to 64·W methods of one function, by their places in its order.
type Set<const W: usize> = [u64; W];

pub fn check(tables: &Tables, functions: &mut Functions) -> Result<(), Broken> {
    for (number, signature) in tables.signatures.iter().enumerate() {
        functions.sets(tables, signature[0]).check(tables, number, signature)?;
    }
    Ok(())
}

/// Where a resend of a method goes: the record of the target, or 25 or 26 where there is none.
pub fn target<'a>(tables: &Tables<'a>, functions: &mut Functions, method: &[u8; 12]) -> Result<&'a [u8; 12], u8> {
    let target = functions.sets(tables, method[0]).target([method[1], method[2], method[3]])?;
    Ok(&tables.methods[target as usize])
}

/// The sets of those functions that a check has come to.
pub struct Functions {
    /// How many methods each function has.
    counts: [usize; 64],
    sets: Vec<Option<AnyFunction>>,
}

impl Functions {
    pub fn of(tables: &Tables) -> Functions {
        let mut counts = [0; 64];
        for method in tables.methods {
            counts[method[0] as usize] += 1;
        }
        let mut sets = Vec::new();
        sets.resize_with(tables.functions.len(), || None);
        Functions { counts, sets }
    }

    fn sets(&mut self, tables: &Tables, function: u8) -> &mut AnyFunction {
        let count = self.counts[function as usize];
        self.sets[function as usize]
            .get_or_insert_with(|| AnyFunction::of(tables, function, count, |method, place| method[4 + place]))
    }
}

/// What the tuples find that have a concrete class under the upper class at each place.
pub enum Rough {
    One(u16),
    MayFail,
    Several,
}

/// None where an upper class has no concrete class under it.
pub fn rough(tables: &Tables, function: u8, uppers: [u8; 3]) -> Option<Rough> {
    let count = tables.methods.iter().filter(|method| method[0] == function).count();
    // What is declared does not matter, and every class is under class 0.
    AnyFunction::of(tables, function, count, |_, _| 0).rough(tables, uppers)
}

/// The class that counts as declared by a method at a place.
type Declared = fn(&[u8; 12], usize) -> u8;

/// The sets of a function, in words enough for its methods.
enum AnyFunction {
    One(Function<1>),
    Two(Function<2>),
    Four(Function<4>),
    Eight(Function<8>),
}

impl AnyFunction {
    fn of(tables: &Tables, function: u8, count: usize, declared: Declared) -> AnyFunction {
        match count {
            0..=64 => AnyFunction::One(Function::of(tables, function, declared)),
            65..=128 => AnyFunction::Two(Function::of(tables, function, declared)),
            129..=256 => AnyFunction::Four(Function::of(tables, function, declared)),
            _ => AnyFunction::Eight(Function::of(tables, function, declared)),
        }
    }

    fn check(&mut self, tables: &Tables, number: usize, signature: &[u8; 5]) -> Result<(), Broken> {
        match self {
            AnyFunction::One(sets) => sets.check(tables, number, signature),
            AnyFunction::Two(sets) => sets.check(tables, number, signature),
            AnyFunction::Four(sets) => sets.check(tables, number, signature),
            AnyFunction::Eight(sets) => sets.check(tables, number, signature),
        }
    }

    fn rough(&mut self, tables: &Tables, uppers: [u8; 3]) -> Option<Rough> {
        match self {
            AnyFunction::One(sets) => sets.rough(tables, uppers),
            AnyFunction::Two(sets) => sets.rough(tables, uppers),
            AnyFunction::Four(sets) => sets.rough(tables, uppers),
            AnyFunction::Eight(sets) => sets.rough(tables, uppers),
        }
    }

    fn target(&self, specialisers: [u8; 3]) -> Result<u16, u8> {
        match self {
            AnyFunction::One(sets) => sets.target(specialisers),
            AnyFunction::Two(sets) => sets.target(specialisers),
            AnyFunction::Four(sets) => sets.target(specialisers),
            AnyFunction::Eight(sets) => sets.target(specialisers),
        }
    }
}

struct Function<const W: usize> {
    places: usize,
    /// The numbers of the methods, more specific ones first.
    order: Vec<u16>,
    /// For each place and class the methods that apply there.
    applying: [Vec<Set<W>>; 3],
    /// For each place and class the methods whose declared class holds it.
    holding: [Vec<Set<W>>; 3],
    /// For each method the methods that it is at least as specific as.
    below: Vec<Set<W>>,
    /// For each place and class a number that classes share where no method tells them apart.
    groups: [[u8; 128]; 3],
    kept: Kept<W>,
}

impl<const W: usize> Function<W> {
    fn of(tables: &Tables, function: u8, declared: Declared) -> Function<W> {
        let places = tables.functions[function as usize] as usize;
        let methods = tables.methods;
        let mut order: Vec<u16> = (0..methods.len() as u16).filter(|&m| methods[m as usize][0] == function).collect();
        order.sort_unstable_by_key(|&m| {
            let record = methods[m as usize];
            std::cmp::Reverse([record[1], record[2], record[3]])
        });
        let mut groups = [[0; 128]; 3];
        let mut applying: [Vec<Set<W>>; 3] = Default::default();
        let mut holding: [Vec<Set<W>>; 3] = Default::default();
        for place in 0..places {
            let specialiser = |m: u16| methods[m as usize][1 + place];
            let declared = |m: u16| declared(&methods[m as usize], place);
            groups[place] = group(tables, class_set(&order, specialiser), class_set(&order, declared));
            applying[place] = above(tables, &order, specialiser);
            holding[place] = above(tables, &order, declared);
        }
        let all = first_bits::<W>(order.len());
        let below = order
            .iter()
            .map(|&m| {
                let record = methods[m as usize];
                (0..places).fold(all, |set, place| both(&set, &applying[place][record[1 + place] as usize]))
            })
            .collect();
        Function { places, order, applying, holding, below, groups, kept: Kept::new() }
    }

    fn check(&mut self, tables: &Tables, number: usize, signature: &[u8; 5]) -> Result<(), Broken> {
        let mut results = [0; W];
        for (bit, &m) in self.order.iter().enumerate() {
            let good = tables.under(tables.methods[m as usize][7], signature[4]);
            results[bit / 64] |= (good as u64) << (bit % 64);
        }
        let tried = self.tried(tables, [signature[1], signature[2], signature[3]]);
        match self.first_broken(&tried, &results) {
            None => Ok(()),
            Some(tuple) => Err(self.reason(tables, number, signature, tuple)),
        }
    }

    /// Searches for a tuple that does not find what the first one finds, and where there is one, for a tuple that fails.
    fn rough(&mut self, tables: &Tables, uppers: [u8; 3]) -> Option<Rough> {
        let tried = self.tried(tables, uppers);
        let mut first = [0; 3];
        for (class, tried) in first.iter_mut().zip(&tried[..self.places]) {
            *class = *tried.first()?;
        }
        let Some(found) = lowest(&self.apply(first)) else {
            return Some(Rough::MayFail);
        };
        let mut alone = [0; W];
        alone[found / 64] = 1 << (found % 64);
        if self.first_broken(&tried, &alone).is_none() {
            return Some(Rough::One(self.order[found]));
        }
        let all = first_bits(self.order.len());
        Some(if self.first_broken(&tried, &all).is_none() { Rough::Several } else { Rough::MayFail })
    }

    /// The classes to try at each place.
    fn tried(&self, tables: &Tables, tops: [u8; 3]) -> [Vec<u8>; 3] {
        let mut tried: [Vec<u8>; 3] = Default::default();
        for place in 0..self.places {
            tried[place] = self.tried_at(tables, place, tops[place]);
        }
        tried
    }

    /// The concrete classes under a class, but of those that no method tells apart at this place only the lowest.
    fn tried_at(&self, tables: &Tables, place: usize, top: u8) -> Vec<u8> {
        let mut seen = 0u128;
        let mut concrete = tables.concrete;
        let mut tried = Vec::with_capacity(128);
        while concrete != 0 {
            let class = concrete.trailing_zeros() as u8;
            concrete &= concrete - 1;
            let group = 1 << self.groups[place][class as usize];
            if tables.under(class, top) && seen & group == 0 {
                seen |= group;
                tried.push(class);
            }
        }
        tried
    }

    /// The first tuple that finds no method, or none of the good ones.
    fn first_broken(&mut self, tried: &[Vec<u8>; 3], good: &Set<W>) -> Option<[u8; 3]> {
        self.kept.begin();
        self.search(tried, 0, &first_bits(self.order.len()), good)
    }

    /// The first broken tuple, given the methods that apply at the places before and those of them that are good there.
    fn search(&mut self, tried: &[Vec<u8>; 3], place: usize, apply: &Set<W>, good: &Set<W>) -> Option<[u8; 3]> {
        if place == self.places {
            return if self.leads(apply, good) { None } else { Some([0; 3]) };
        }
        if place + 1 == self.places {
            let class = self.last_place(&tried[place], place, apply, good)?;
            let mut tuple = [0; 3];
            tuple[place] = class;
            return Some(tuple);
        }
        for &class in &tried[place] {
            let apply = both(apply, &self.applying[place][class as usize]);
            let good = both(&both(good, &self.holding[place][class as usize]), &apply);
            if self.kept.has(place, &apply, &good) {
                continue;
            }
            if let Some(mut tuple) = self.search(tried, place + 1, &apply, &good) {
                tuple[place] = class;
                return Some(tuple);
            }
            self.kept.keep(place, &apply, &good);
        }
        None
    }

    /// The last place, by the one word that has the methods that still apply, or by all words.
    fn last_place(&self, tried: &[u8], place: usize, apply: &Set<W>, good: &Set<W>) -> Option<u8> {
        let mut words = (0..W).filter(|&word| apply[word] != 0);
        let first = words.next().unwrap_or(0);
        if words.next().is_some() {
            return tried.iter().copied().find(|&class| {
                let apply = both(apply, &self.applying[place][class as usize]);
                let good = both(good, &self.holding[place][class as usize]);
                !self.leads(&apply, &good)
            });
        }
        let (apply, good) = (apply[first], good[first]);
        let (applying, holding) = (&self.applying[place][..], &self.holding[place][..]);
        tried.iter().copied().find(|&class| {
            let apply = apply & applying[class as usize][first];
            if apply == 0 {
                return true;
            }
            let bit = apply.trailing_zeros();
            let good = good & holding[class as usize][first];
            good >> bit & 1 == 0 || apply & !self.below[64 * first + bit as usize][first] != 0
        })
    }

    /// Whether the first method that applies leads all that apply, and is good.
    fn leads(&self, apply: &Set<W>, good: &Set<W>) -> bool {
        let Some(first) = lowest(apply).filter(|&first| has(good, first)) else {
            return false;
        };
        let below = &self.below[first];
        (0..W).all(|word| apply[word] & !below[word] == 0)
    }

    /// The methods that apply to a tuple.
    fn apply(&self, tuple: [u8; 3]) -> Set<W> {
        let sets = self.applying[..self.places].iter().zip(tuple);
        sets.fold(first_bits(self.order.len()), |apply, (sets, class)| both(&apply, &sets[class as usize]))
    }

    /// Where a resend of the method with these specialisers goes. The method itself applies to them too, and stands before
    /// all that it overrides.
    fn target(&self, specialisers: [u8; 3]) -> Result<u16, u8> {
        let mut overridden = self.apply(specialisers);
        if let Some(own) = lowest(&overridden) {
            overridden[own / 64] &= !(1 << (own % 64));
        }
        let first = lowest(&overridden).ok_or(25)?;
        if self.leads(&overridden, &overridden) {
            Ok(self.order[first])
        } else {
            Err(26)
        }
    }

    /// Why a tuple is broken, and by which methods.
    fn reason(&self, tables: &Tables, number: usize, signature: &[u8; 5], tuple: [u8; 3]) -> Broken {
        let mut named = vec![number as u64, signature[0] as u64];
        named.extend(tuple.map(u64::from));
        let apply = self.apply(tuple);
        let methods: Vec<usize> = (0..self.order.len()).filter(|&m| has(&apply, m)).collect();
        let Some(&first) = methods.first() else {
            return Broken::new(10, &named);
        };
        if methods.iter().any(|&m| !has(&self.below[first], m)) {
            let mut rivals = self.rivals(&methods);
            rivals.sort_unstable();
            named.extend(rivals.iter().rev().take(2));
            return Broken::new(11, &named);
        }
        named.push(self.order[first] as u64);
        let method = tables.methods[self.order[first] as usize];
        let held = (0..self.places).all(|place| tables.under(tuple[place], method[4 + place]));
        Broken::new(if held { 13 } else { 12 }, &named)
    }

    /// The numbers of those methods that no other of them beats. The methods come by their places in the order, where a method
    /// stands after all that beat it, so one pass is enough.
    fn rivals(&self, methods: &[usize]) -> Vec<u64> {
        let mut beaten: Set<W> = [0; W];
        let mut rivals = Vec::new();
        for &m in methods {
            if !has(&beaten, m) {
                rivals.push(self.order[m] as u64);
                for (word, below) in beaten.iter_mut().zip(self.below[m]) {
                    *word |= below;
                }
            }
        }
        rivals
    }
}

/// The classes that the methods of an order name.
fn class_set(order: &[u16], class: impl Fn(u16) -> u8) -> u128 {
    order.iter().fold(0, |set, &m| set | 1 << class(m))
}

/// For each class the methods that name a class it is under.
fn above<const W: usize>(tables: &Tables, order: &[u16], class: impl Fn(u16) -> u8) -> Vec<Set<W>> {
    let mut sets = vec![[0; W]; tables.classes];
    for (bit, &m) in order.iter().enumerate() {
        sets[class(m) as usize][bit / 64] |= 1 << (bit % 64);
    }
    for number in 0..tables.classes {
        let (start, end) = tables.lists[number];
        for &parent in &tables.parents[start as usize..end as usize] {
            let from = sets[parent as usize];
            for (word, more) in sets[number].iter_mut().zip(from) {
                *word |= more;
            }
        }
    }
    sets
}

fn first_bits<const W: usize>(count: usize) -> Set<W> {
    let mut set = [0; W];
    for (word, bits) in set.iter_mut().enumerate() {
        let rest = count.saturating_sub(64 * word);
        *bits = if rest >= 64 { u64::MAX } else { (1 << rest) - 1 };
    }
    set
}

fn both<const W: usize>(a: &Set<W>, b: &Set<W>) -> Set<W> {
    let mut set = *a;
    for (word, other) in set.iter_mut().zip(b) {
        *word &= other;
    }
    set
}

fn has<const W: usize>(set: &Set<W>, bit: usize) -> bool {
    set[bit / 64] >> (bit % 64) & 1 == 1
}

fn lowest<const W: usize>(set: &Set<W>) -> Option<usize> {
    let word = (0..W).find(|&word| set[word] != 0)?;
    Some(64 * word + set[word].trailing_zeros() as usize)
}

/// Groups of the classes: two are in one group when they are under the same specialisers and the same declared classes.
fn group(tables: &Tables, specialisers: u128, declared: u128) -> [u8; 128] {
    let mut groups = [0; 128];
    // Keys of the groups so far, by a hash table of 256 slots for at most 128 groups.
    let mut keys = [[0u128; 2]; 128];
    let mut slots = [NO_GROUP; 256];
    let mut count = 0;
    for (class, &ancestors) in tables.ancestors[..tables.classes].iter().enumerate() {
        let key = [ancestors & specialisers, ancestors & declared];
        let words = [key[0] as u64, (key[0] >> 64) as u64, key[1] as u64, (key[1] >> 64) as u64];
        let mut slot = (hash(words.into_iter()) >> 56) as usize;
        while slots[slot] != NO_GROUP && keys[slots[slot] as usize] != key {
            slot = (slot + 1) % 256;
        }
        if slots[slot] == NO_GROUP {
            slots[slot] = count;
            keys[count as usize] = key;
            count += 1;
        }
        groups[class] = slots[slot];
    }
    groups
}

const NO_GROUP: u8 = 255;

fn hash(words: impl Iterator<Item = u64>) -> u64 {
    words.fold(0, |sofar: u64, word| (sofar.rotate_left(5) ^ word).wrapping_mul(0x517c_c1b7_2722_0a95))
}

/// Sets of methods from which no tuple of the search at hand is broken, with the place after which they were found. A later
/// pair takes an earlier one's slot, so that the table stays small.
struct Kept<const W: usize> {
    slots: Vec<Slot<W>>,
    search: u32,
}

#[derive(Clone)]
struct Slot<const W: usize> {
    /// The search, counted from 1, and the place.
    found: (u32, u32),
    apply: Set<W>,
    good: Set<W>,
}

const KEPT: usize = 1024;

impl<const W: usize> Kept<W> {
    fn new() -> Kept<W> {
        Kept { slots: Vec::new(), search: 0 }
    }

    /// Begins a search: what was kept for the last one no longer counts.
    fn begin(&mut self) {
        self.search += 1;
    }

    fn slot(place: usize, apply: &Set<W>, good: &Set<W>) -> usize {
        (hash(apply.iter().chain(good).copied().chain([place as u64])) >> 54) as usize % KEPT
    }

    fn has(&self, place: usize, apply: &Set<W>, good: &Set<W>) -> bool {
        match self.slots.get(Self::slot(place, apply, good)) {
            Some(slot) => slot.found == (self.search, place as u32) && slot.apply == *apply && slot.good == *good,
            None => false,
        }
    }

    fn keep(&mut self, place: usize, apply: &Set<W>, good: &Set<W>) {
        if self.slots.is_empty() {
            self.slots = vec![Slot { found: (0, 0), apply: [0; W], good: [0; W] }; KEPT];
        }
        let found = (self.search, place as u32);
        self.slots[Self::slot(place, apply, good)] = Slot { found, apply: *apply, good: *good };
    }
}
