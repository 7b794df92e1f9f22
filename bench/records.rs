// The lengths of records, for bench/count.rs and bench/speed.rs.

// Of the head, before the values, and of an IntLit's whole record, the most that one byte of script costs.
pub const HEAD: usize = 13;
pub const INT_LIT: usize = HEAD + 4;

// Bytes enough for the records of every script of n bytes.
pub const fn bound(n: usize) -> usize {
    INT_LIT * n + HEAD
}
