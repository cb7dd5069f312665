//! Which classes of a bundle are under which.

use builder::Parts;

/// For each class the set of classes it is under, and the concrete classes.
pub struct Hierarchy {
    above: Vec<u128>,
    concrete: Vec<u8>,
}

impl Hierarchy {
    pub fn of(parts: &Parts) -> Hierarchy {
        let mut above: Vec<u128> = Vec::new();
        let mut concrete = Vec::new();
        for (number, class) in parts.classes.iter().enumerate() {
            above.push(class.parents.iter().fold(1 << number, |set, &parent| set | above[parent as usize]));
            if class.concrete {
                concrete.push(number as u8);
            }
        }
        Hierarchy { above, concrete }
    }

    pub fn is_under(&self, class: u8, other: u8) -> bool {
        self.above[class as usize] >> other & 1 == 1
    }

    pub fn classes(&self) -> impl Iterator<Item = u8> {
        0..self.above.len() as u8
    }

    /// The concrete classes under a class, rising.
    pub fn concrete_under(&self, top: u8) -> impl Iterator<Item = u8> + '_ {
        self.concrete.iter().copied().filter(move |&class| self.is_under(class, top))
    }
}
