//! What an opening had to tell apart: methods of one bucket, and a list that begins or ends one off.

use crate::sections::{methods, section, two_bytes, CLASSES, METHODS};
use builder::{bucket, BUCKETS};

/// The key of each method.
fn keys(bundle: &[u8]) -> Vec<[u8; 4]> {
    methods(bundle).iter().map(|&[function, a, b, c, ..]| [function, a, b, c]).collect()
}

/// How many methods are in the fullest bucket of a bundle that opens.
pub fn fullest_bucket(bundle: &[u8]) -> usize {
    let mut counts = [0; BUCKETS];
    for key in keys(bundle) {
        counts[bucket(key)] += 1;
    }
    counts.into_iter().fold(0, usize::max)
}

/// For a method that opening refuses as a twin: how many others of its bucket stand before both twins, and between them.
pub fn beside_twins(bundle: &[u8], later: usize) -> [usize; 2] {
    let keys = keys(bundle);
    let twin = keys[later];
    let earlier = keys.iter().position(|&key| key == twin).expect("the method itself is one");
    [0..earlier, earlier + 1..later].map(|range| keys[range].iter().filter(|&&key| bucket(key) == bucket(twin)).count())
}

/// Where the lists of a bundle that opening refuses by 4 or 7 are off by an entry or less: 0 where the first begins, 1 where one in
/// the middle does, 2 where the last does, 3 where the last ends. None where it is not this that the record is refused for.
pub fn off_by_one(bundle: &[u8], refusal: u8, record: usize) -> Option<usize> {
    let listed = if refusal == 4 { CLASSES } else { METHODS };
    let last = listed.count(bundle) - 1;
    let offset_at = listed.offset_at(bundle, record);
    let end: usize = (0..record).map(|earlier| two_bytes(bundle, listed.offset_at(bundle, earlier) + 2)).sum();
    let (place, at, right) = match record {
        _ if record == last && two_bytes(bundle, offset_at) == end => {
            (3, offset_at + 2, section(bundle, listed.pair + 1).len() - end)
        }
        0 => (0, offset_at, end),
        _ if record < last => (1, offset_at, end),
        _ => (2, offset_at, end),
    };
    if two_bytes(bundle, at).abs_diff(right) > listed.entry {
        return None;
    }
    // With the right number there the record has to be lawful.
    let mut mended = bundle.to_vec();
    mended[at..at + 2].copy_from_slice(&(right as u16).to_le_bytes());
    let reply = plain::open(&mended);
    ((reply.number, reply.values[0]) != (refusal, record as u64)).then_some(place)
}
