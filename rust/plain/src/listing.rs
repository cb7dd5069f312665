//! The listing: what the check says of a bundle, as lines of text (docs/MANUAL.md, part 12).

use crate::bundle::{Broken, Bundle};
use crate::coverage::{self, Fault};
use crate::dispatch::Matrix;
use crate::typing::{self, BrokenBody};

/// The lines for a bundle. One that does not open has no counts.
pub fn lines(bytes: &[u8]) -> String {
    let bundle = match Bundle::open(bytes) {
        Ok(bundle) => bundle,
        Err(Broken { number, record: None }) => return format!("refused {number}\n"),
        Err(Broken { number, record: Some(record) }) => return format!("refused {number} record {record}\n"),
    };
    format!(
        "classes {} functions {} signatures {} methods {}\n{}\n",
        bundle.classes.len(),
        bundle.functions.len(),
        bundle.signatures.len(),
        bundle.methods.len(),
        verdict(&bundle)
    )
}

fn verdict(bundle: &Bundle) -> String {
    let matrix = Matrix::of(bundle);
    if let Some((number, tuple, fault)) = coverage::first_broken(bundle, &matrix) {
        let function = bundle.signatures[number].function;
        let classes: String = tuple[..bundle.functions[function]].iter().map(|class| format!(" {class}")).collect();
        let send = format!("signature {number} send {function}{classes}");
        return match fault {
            Fault::NoMethod => format!("refused 10 {send}"),
            Fault::Rivals(first, second) => format!("refused 11 {send} methods {first} {second}"),
            Fault::Declared(method) => format!("refused 12 {send} method {method}"),
            Fault::Result(method) => format!("refused 13 {send} method {method}"),
        };
    }
    match typing::first_broken_body(bundle, &matrix) {
        Some((method, BrokenBody { number, instruction })) => {
            format!("refused {number} method {method} at {instruction}")
        }
        None => "accepted".to_string(),
    }
}
