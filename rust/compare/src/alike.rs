//! Bundles for a search that leaves out what it need not try: classes that are alike for the methods at hand, and signatures
//! that an earlier one implies. Each change here is small, so that what may be left out lies beside what may not.

use crate::hierarchy::Hierarchy;
use builder::{Parts, Random};

/// Draws classes under some of a few tops, which are mostly abstract.
pub fn draw_classes(parts: &mut Parts, random: &mut Random, count: usize) {
    let tops = random.within(1, 5);
    for number in 0..count {
        let mut parents: Vec<u8> =
            (0..number.min(random.of(&[1, 1, 2, 3]))).map(|_| random.below(number.min(tops)) as u8).collect();
        parents.sort_unstable();
        parents.dedup();
        let concrete = if number < tops { random.once_in(4) } else { !random.once_in(8) };
        parts.class(concrete, &parents);
    }
}

/// Adds a signature of the same function as an earlier one, with classes above or under those of that one at some places.
pub fn add_related_signature(parts: &mut Parts, random: &mut Random) {
    if parts.signatures.is_empty() {
        return;
    }
    let hierarchy = Hierarchy::of(parts);
    let mut signature = parts.signatures[random.below(parts.signatures.len())].clone();
    let places = parts.functions[signature.function as usize] as usize;
    for class in signature.arguments[..places].iter_mut().chain([&mut signature.result]) {
        if random.once_in(3) {
            *class = related(&hierarchy, random, *class);
        }
    }
    parts.signatures.push(signature);
}

/// A class that another is under, or one that is under that other.
fn related(hierarchy: &Hierarchy, random: &mut Random, class: u8) -> u8 {
    let lower = random.once_in(2);
    let fits = |&other: &u8| if lower { hierarchy.is_under(other, class) } else { hierarchy.is_under(class, other) };
    let fit: Vec<u8> = hierarchy.classes().filter(fits).collect();
    random.of(&fit)
}

/// Declares a class that tells apart what the specialiser does not: of the concrete classes that a signature lets come to
/// the place the lowest is under it, and not all are. Says whether it found one.
pub fn declare_apart(parts: &mut Parts, random: &mut Random) -> bool {
    if parts.signatures.is_empty() || parts.methods.is_empty() {
        return false;
    }
    let hierarchy = Hierarchy::of(parts);
    let signature = &parts.signatures[random.below(parts.signatures.len())];
    let at = random.below(parts.methods.len());
    let method = &mut parts.methods[at];
    let places = parts.functions[method.function as usize] as usize;
    if signature.function != method.function || places == 0 {
        return false;
    }
    let place = random.below(places);
    let coming: Vec<u8> = hierarchy
        .concrete_under(method.specialisers[place])
        .filter(|&class| hierarchy.is_under(class, signature.arguments[place]))
        .collect();
    let Some(&lowest) = coming.first() else {
        return false;
    };
    let apart: Vec<u8> = hierarchy
        .classes()
        .filter(|&class| hierarchy.is_under(lowest, class))
        .filter(|&class| coming.iter().any(|&other| !hierarchy.is_under(other, class)))
        .collect();
    if apart.is_empty() {
        return false;
    }
    method.declared[place] = random.of(&apart);
    true
}

/// Puts a class that a method does not hold under the class that it declares, where the numbers allow it; or else lets the
/// method declare its specialisers.
pub fn repair_declared(parts: &mut Parts, random: &mut Random, method: usize, tuple: [usize; 3]) {
    let hierarchy = Hierarchy::of(parts);
    let method = &mut parts.methods[method];
    for (class, declared) in tuple.into_iter().zip(method.declared) {
        if !hierarchy.is_under(class as u8, declared) && (declared as usize) < class && !random.once_in(3) {
            let parents = &mut parts.classes[class].parents;
            parents.push(declared);
            parents.sort_unstable();
            return;
        }
    }
    method.declared = method.specialisers;
}

/// Breaks an accepted bundle, if a few tries can, where a search that leaves too much out would not look.
pub fn mislead(parts: &mut Parts, random: &mut Random) {
    match random.below(4) {
        0..=1 => {
            for _ in 0..20 {
                if declare_apart(parts, random) {
                    break;
                }
            }
        }
        2 => {
            // A class falls out of one that a method may declare.
            let several: Vec<usize> =
                (0..parts.classes.len()).filter(|&class| parts.classes[class].parents.len() > 1).collect();
            if !several.is_empty() {
                let parents = &mut parts.classes[random.of(&several)].parents;
                parents.remove(random.below(parents.len()));
            }
        }
        _ => add_related_signature(parts, random),
    }
}
