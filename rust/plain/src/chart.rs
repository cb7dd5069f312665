//! The chart of a function of two arguments: a head, and a line for each concrete class (docs/MANUAL.md, part 13).

use crate::bundle::Bundle;
use crate::dispatch::{self, Found, Matrix};

/// A line, with its newline. The head is line 0; its columns are the concrete classes in rising order, as second arguments.
/// Line k is that of the k-th of them as first argument. None where there are fewer.
pub fn line(bundle: &Bundle, matrix: &Matrix, function: usize, number: usize) -> Option<String> {
    let concretes: Vec<usize> = (0..bundle.classes.len()).filter(|&class| bundle.classes[class].concrete).collect();
    let mut fields = Vec::new();
    if number == 0 {
        fields.push(String::new());
        fields.extend(concretes.iter().map(usize::to_string));
    } else {
        let &first = concretes.get(number - 1)?;
        fields.push(first.to_string());
        fields.extend(concretes.iter().map(|&second| cell(bundle, matrix, function, first, second)));
    }
    let fields: Vec<String> = fields.iter().map(|field| format!("{field:>4}")).collect();
    Some(fields.join(" ") + "\n")
}

/// What a lookup says. Declared classes have no part in it.
fn cell(bundle: &Bundle, matrix: &Matrix, function: usize, first: usize, second: usize) -> String {
    match dispatch::lookup(bundle, matrix, function, [first, second, 0]) {
        Found::One(method) => method.to_string(),
        Found::None => "-".to_string(),
        Found::Rivals(..) => "*".to_string(),
    }
}
