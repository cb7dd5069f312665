//! The chart bundles: the samples that the worked cases go by, and the bundle of the widest chart.

use crate::{Parts, NEW, SEND};

/// Refused by 11: three methods apply to (2, 4) and none leads.
pub fn chart_3() -> Parts {
    let mut parts = Parts::default();
    parts.class(false, &[]); // 0 Any
    parts.class(true, &[0]); // 1 Session
    parts.class(true, &[1]); // 2 Lapsed
    parts.class(true, &[0]); // 3 Bench
    parts.class(true, &[3]); // 4 SharedBench
    parts.class(false, &[0]); // 5 Outcome
    parts.class(true, &[5]); // 6 Armed
    parts.class(true, &[5]); // 7 Denied
    let arm = parts.function(2);
    parts.signature(arm, [1, 3, 0], 5);
    parts.method(arm, [1, 4, 0], 6, &[[NEW, 6]]);
    parts.method(arm, [2, 3, 0], 7, &[[NEW, 7]]);
    parts.method(arm, [1, 3, 0], 6, &[[NEW, 6]]);
    parts
}

/// Accepted: a fourth method settles that send.
pub fn chart_4() -> Parts {
    let mut parts = chart_3();
    parts.method(0, [2, 4, 0], 7, &[[NEW, 7]]);
    parts
}

/// Accepted, with a second and narrower signature.
pub fn chart_5() -> Parts {
    let mut parts = chart_4();
    parts.signature(0, [2, 3, 0], 7);
    parts
}

/// Accepted: a method that sends its own function.
pub fn looping() -> Parts {
    let mut parts = Parts::default();
    parts.class(true, &[]);
    let again = parts.function(0);
    parts.signature(again, [0; 3], 0);
    parts.method(again, [0; 3], 0, &[[SEND, again]]);
    parts
}

/// Refused by 11: five methods apply to class 5. Methods 0, 1 and 3 are rivals; method 2, between them, and method 4, above
/// them, are beaten.
pub fn three_rivals() -> Parts {
    let mut parts = Parts::default();
    parts.class(false, &[]);
    parts.class(false, &[0]);
    for _ in 2..5 {
        parts.class(false, &[1]);
    }
    parts.class(true, &[2, 3, 4]);
    let function = parts.function(1);
    parts.signature(function, [0; 3], 0);
    for specialiser in [2, 3, 1, 4, 0] {
        parts.method(function, [specialiser, 0, 0], 0, &[[NEW, 5]]);
    }
    parts
}

/// 128 concrete classes in a tree: two children to a class, down to depth 6.
pub fn tree() -> Parts {
    let mut parts = Parts::default();
    parts.class(true, &[]);
    for number in 1..128u8 {
        // The last class would begin depth 7; it is a third child instead.
        parts.class(true, &[((number - 1) / 2).min(62)]);
    }
    parts
}

/// A function of two arguments over the tree, with as many methods as there may be: one for each pair of the first 23 classes, but
/// for the last 17 pairs, so that class 22 as first argument often finds rivals.
pub fn widest_chart() -> Parts {
    let mut parts = tree();
    let function = parts.function(2);
    for number in 0..512 {
        parts.method(function, [(number / 23) as u8, (number % 23) as u8, 0], 0, &[[NEW, 0]]);
    }
    parts
}
