//! The matrix that a call leaves in its scratch.

/// How many pairs of classes there are; the matrix has a bit for each.
pub const PAIRS: usize = 128 * 128;

/// Whether class `a` is under class `b`, which is bit `b` mod 8 of byte 16·`a` + `b` / 8; of an absent class, no.
pub fn is_under(matrix: &[u8], a: u64, b: u64) -> bool {
    a < 128 && b < 128 && matrix[(16 * a + b / 8) as usize] >> (b % 8) & 1 == 1
}
