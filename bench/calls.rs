// The three that are timed and counted: ergo_tokenize, the published tokenize and the peer by re2c; and that they give the same answer, as measuring
// does. On rows with operator signs that the published tokenize does not know, the copy of it that has them stands in its place.
use crate::records::bound;
use std::hint::black_box;

#[link(name = "ergo", kind = "static")]
extern "C" {
    fn ergo_tokenize(script: *const u8, n: u64, records: *mut u8, m: u64, answer: *mut u8, k: u64) -> u32;
    fn ergo_measure(script: *const u8, n: u64, answer: *mut u8, k: u64) -> u32;
}

#[cfg(peer)]
#[link(name = "peer", kind = "static")]
extern "C" {
    fn peer_tokenize(script: *const u8, n: u64, records: *mut u8, m: u64, answer: *mut u8, k: u64) -> u32;
}

type Entry = unsafe extern "C" fn(*const u8, u64, *mut u8, u64, *mut u8, u64) -> u32;

#[derive(Clone, Copy, PartialEq)]
pub enum Who {
    Ours,
    Tokenize,
    // The copy of tokenize that has all operator signs.
    Widened,
    Peer,
}

// Those that were built in, for a row with operator signs that the published tokenize does not know, or without.
pub fn all(signs: bool) -> Vec<Who> {
    let mut all = vec![Who::Ours];
    if cfg!(published) {
        all.push(if signs { Who::Widened } else { Who::Tokenize });
    }
    if cfg!(peer) {
        all.push(Who::Peer);
    }
    all
}

#[cfg(peer)]
const PEER: Entry = peer_tokenize;
#[cfg(not(peer))]
const PEER: Entry = ergo_tokenize;

// The answer block: number, place, token count, record bytes.
pub type Block = [u32; 4];

// The numbers of these that a block begins with.
fn begins(answer: &[u8]) -> Block {
    let word = |at: usize| u32::from_le_bytes(answer[at..at + 4].try_into().unwrap());
    [word(0), word(4), word(8), word(12)]
}

fn entry(f: Entry, script: &str, records: &mut [u8]) -> Block {
    let mut answer = [0u8; 16];
    let (r, a) = (records.as_mut_ptr(), answer.as_mut_ptr());
    unsafe { f(script.as_ptr(), script.len() as u64, r, records.len() as u64, a, 16) };
    begins(&answer)
}

// One call of ergo_measure. The counts of kinds, behind these four numbers, are left out.
pub fn measure(script: &str) -> Block {
    let mut answer = [0u8; 32];
    unsafe { ergo_measure(script.as_ptr(), script.len() as u64, answer.as_mut_ptr(), 32) };
    begins(&answer)
}

// How many tokens, or nothing where tokenize refused.
#[cfg(published)]
fn tokenize(script: &str) -> Option<usize> {
    published::token::tokenize(script).ok().map(|tokens| tokens.len())
}

#[cfg(published)]
fn widened(script: &str) -> Option<usize> {
    widened::token::tokenize(script).ok().map(|tokens| tokens.len())
}

#[cfg(not(published))]
fn tokenize(_: &str) -> Option<usize> {
    panic!("built without the published tokenize")
}

#[cfg(not(published))]
use tokenize as widened;

pub fn ours(script: &str, records: &mut [u8]) -> Block {
    entry(ergo_tokenize, script, records)
}

// One call, as it is timed and counted.
pub fn call(who: Who, script: &str, records: &mut [u8]) {
    let script = black_box(script);
    match who {
        Who::Ours => drop(black_box(entry(ergo_tokenize, script, records))),
        Who::Tokenize => drop(black_box(tokenize(script))),
        Who::Widened => drop(black_box(widened(script))),
        Who::Peer => drop(black_box(entry(PEER, script, records))),
    }
}

// Calls each of them once, and ergo_measure: all must give the same answer, and the peer the same records. It gives the number, 0 or the refusal.
pub fn agree(name: &str, script: &str, all: &[Who], records: &mut [u8], others: &mut [u8]) -> u32 {
    let block = ours(script, &mut records[..bound(script.len())]);
    let bytes = block[3] as usize;
    assert_eq!(measure(script), block, "{name}: measuring answers otherwise");
    let count = (block[0] == 0).then_some(block[2] as usize);
    for (who, tokenize) in [(Who::Tokenize, tokenize as fn(&str) -> Option<usize>), (Who::Widened, widened)] {
        if all.contains(&who) {
            assert_eq!(tokenize(script), count, "{name}: tokenize answers otherwise");
        }
    }
    if all.contains(&Who::Peer) {
        assert_eq!(entry(PEER, script, &mut others[..bound(script.len())]), block, "{name}: the peer answers otherwise");
        assert!(records[..bytes] == others[..bytes], "{name}: the peer writes other records");
    }
    block[0]
}
