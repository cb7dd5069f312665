//! `compare [BUNDLES [SEED]]` compares over the sample bundles and over so many made ones, 100,000 where none is said. The
//! seed is 1 where none is said, so that a run can be repeated. `compare vectors FOLDER` holds the implementations to
//! cases with expected answers.

use compare::calls::Comparer;
use compare::{given_bundles, made_bundles, vectors};
use std::path::Path;
use std::process::ExitCode;

const SAMPLES: &str = concat!(env!("CARGO_MANIFEST_DIR"), "/../../bundles");

fn main() -> ExitCode {
    let words: Vec<String> = std::env::args().skip(1).collect();
    let words: Vec<&str> = words.iter().map(String::as_str).collect();
    if let ["vectors", folder] = words[..] {
        return vectors::compare(Path::new(folder));
    }
    let numbers: Option<Vec<u64>> = words.iter().map(|word| word.parse().ok()).collect();
    match numbers.as_deref() {
        Some([]) => compare(100_000, 1),
        Some([count]) => compare(*count, 1),
        Some([count, seed]) => compare(*count, *seed),
        _ => {
            eprintln!("usage: compare [BUNDLES [SEED]] | compare vectors FOLDER");
            ExitCode::from(2)
        }
    }
}

fn compare(count: u64, seed: u64) -> ExitCode {
    let mut comparer = Comparer::default();
    given_bundles(&samples(), &mut comparer);
    made_bundles(count as usize, seed, &mut comparer);
    print!("{}", comparer.tally);
    let never = comparer.tally.never_seen();
    if !never.is_empty() {
        println!("never seen: {}", never.join(", "));
    }
    if comparer.tally.differences == 0 && never.is_empty() {
        ExitCode::SUCCESS
    } else {
        ExitCode::FAILURE
    }
}

/// The sample bundles, in the order of their names.
fn samples() -> Vec<Vec<u8>> {
    let mut names: Vec<_> = std::fs::read_dir(SAMPLES)
        .expect("the folder of sample bundles is there")
        .map(|entry| entry.expect("the folder can be read").path())
        .filter(|path| path.extension().is_some_and(|extension| extension == "bundle"))
        .collect();
    names.sort();
    names.iter().map(|path| std::fs::read(path).expect("a sample can be read")).collect()
}
