// What ergo_measure must tell of a script, counted from the tokens of the published tokenize, and whether it does. REQUESTS, "Exact need" and
// "Answer of measuring".
use super::{Wanted, HEAD};
use published::token::{Token, TokenKind};

#[cfg(linked)]
use super::{compare, shown, LIMIT};

#[cfg(linked)]
#[link(name = "ergo", kind = "static")]
extern "C" {
    fn ergo_measure(script: *const u8, n: u64, answer: *mut u8, k: u64) -> u32;
}

pub const BLOCK: usize = 32;

// The numbers of a block: refusal, place, token count, record bytes, and the counts below.
pub type Told = [u32; 8];

// How many tokens there are of each kind whose records have values.
#[derive(Default)]
pub struct Counts {
    int_lits: u32,
    long_lits: u32,
    strs: u32,
    newlines: u32,
}

impl Counts {
    pub fn of(tokens: &[Token]) -> Counts {
        let count = |is: fn(&TokenKind) -> bool| tokens.iter().filter(|token| is(&token.kind)).count() as u32;
        Counts {
            int_lits: count(|kind| matches!(kind, TokenKind::IntLit(_))),
            long_lits: count(|kind| matches!(kind, TokenKind::LongLit(_))),
            strs: count(|kind| matches!(kind, TokenKind::Str(_))),
            newlines: count(|kind| matches!(kind, TokenKind::Newline { .. })),
        }
    }
}

impl Wanted {
    // The record bytes are summed by the rule, and not taken from the records. Of a refused script there is no token, so all behind the place is 0.
    pub fn told(&self) -> Told {
        let Counts { int_lits, long_lits, strs, newlines } = self.counts;
        let bytes = HEAD as u32 * self.tokens + 4 * int_lits + 8 * (long_lits + strs) + newlines;
        [self.number, self.place, self.tokens, bytes, int_lits, long_lits, strs, newlines]
    }
}

// The number for a block of this length.
pub fn number(want: &Told, length: usize) -> u32 {
    if length == BLOCK {
        want[0]
    } else {
        20
    }
}

fn block(want: &Told) -> Vec<u8> {
    want.iter().flat_map(|word| word.to_le_bytes()).collect()
}

// One call: what differs in the number handed back, the block and the bytes behind it.
#[cfg(linked)]
pub fn fault(script: &[u8], want: &Told, length: usize, mask: u8) -> Option<String> {
    let mut wanted = Vec::new();
    compare::fill(&mut wanted, length, mask);
    let mut lent = wanted.clone();
    let got = unsafe { ergo_measure(script.as_ptr(), script.len() as u64, lent.as_mut_ptr(), length as u64) };
    let number = number(want, length);
    if number != 20 {
        wanted[..BLOCK].copy_from_slice(&block(want));
    }
    if got == number && lent == wanted {
        return None;
    }
    let behind = if lent[length..] == wanted[length..] { "" } else { "; bytes behind the block changed" };
    let (told, wanted) = (compare::words(&lent[..length]), compare::words(&wanted[..length]));
    Some(format!("{}, measured: number {got}, wanted {number}; block {told}, wanted {wanted}{behind}", shown(script)))
}

#[cfg(linked)]
pub fn null_fault() -> Option<String> {
    let (null, mut lent) = (std::ptr::null_mut(), [9u8; BLOCK]);
    let numbers = unsafe { [ergo_measure(null, 0, lent.as_mut_ptr(), BLOCK as u64), ergo_measure(null, 0, null, 0)] };
    let good = numbers == [0, 20] && lent[..] == block(&[0, 0, 1, HEAD as u32, 0, 0, 0, 0]);
    (!good).then(|| format!("measured at null: {numbers:?}, {lent:?}"))
}

// Lengths of blocks: the right one, those beside it, that of ergo_tokenize, and none.
#[cfg(linked)]
pub const LENGTHS: [usize; 5] = [BLOCK, BLOCK - 1, BLOCK + 1, 16, 0];

// Scripts with what is told of them, counted by hand. In the first no two counts are the same; the last two are over a contact's limits.
#[cfg(linked)]
pub fn cases() -> Vec<(Vec<u8>, Told)> {
    let refused = |number, place| [number, place, 0, 0, 0, 0, 0, 0];
    vec![
        (b"7 8L 9L \"a\" \"b\" \"c\"\n\n\n\nx".to_vec(), [0, 0, 12, 204, 1, 2, 3, 4]),
        (b"7+2147483648".to_vec(), refused(6, 2)),
        (b"7 8L \"a\"\n\x01".to_vec(), refused(3, 9)),
        (b"7 8L \"a\"\nab\xE4".to_vec(), refused(18, 11)),
        ("7 8L \"a\u{202E}\u{2069}\"\n\u{1}".as_bytes().to_vec(), refused(29, 7)),
        ("7 8L \"a\u{202F}\"".as_bytes().to_vec(), [0, 0, 4, 72, 1, 1, 1, 0]),
        (vec![b' '; LIMIT + 1], refused(17, 0)),
        (vec![0xFF; LIMIT + 1], refused(17, 0)),
        (Vec::new(), [0, 0, 1, 13, 0, 0, 0, 0]),
        (vec![b' '; 5000], [0, 0, 1, 13, 0, 0, 0, 0]),
        (vec![b','; 600], [0, 0, 601, 7813, 0, 0, 0, 0]),
    ]
}
