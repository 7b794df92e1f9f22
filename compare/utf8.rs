// Compares the UTF-8 check and the decoder of crates/chars, by the exports of crates/chars_host, with those of Rust's standard library, and,
// built with `--cfg published`, the character classes with the published functions of token.rs. Built and run by compare/utf8.
//
//     utf8              compare, and print how many were compared and how many differed; exit status 1 if any differed
//     utf8 --summary    print what crates/utf8_runs/stdout is to hold; only std::str::from_utf8 is asked
use std::str::from_utf8;

#[cfg(linked)]
#[link(name = "chars_host", kind = "static")]
extern "C" {
    fn chars_valid_prefix(s: *const u8, n: u64) -> u64;
    fn chars_decode(s: *const u8, n: u64, at: u64) -> u64;
    #[cfg(published)]
    fn chars_classes(c: u32) -> u32;
}

// The length of the longest valid prefix, by the standard library.
fn std_prefix(s: &[u8]) -> usize {
    match from_utf8(s) {
        Ok(text) => text.len(),
        Err(e) => e.valid_up_to(),
    }
}

// The character at an offset, by the standard library's own iterator, packed as chars_decode packs it; 0 where none stands there.
#[cfg(linked)]
fn std_decode(s: &[u8], at: usize) -> u64 {
    let rest = s.get(at..).unwrap_or(&[]);
    let text = from_utf8(&rest[..std_prefix(rest)]).unwrap();
    match text.chars().next() {
        Some(c) => ((c.len_utf8() as u64) << 32) | c as u64,
        None => 0,
    }
}

#[cfg(linked)]
#[derive(Default)]
struct Tally {
    compared: u64,
    differed: u64,
}

#[cfg(linked)]
impl Tally {
    fn note(&mut self, same: bool, what: impl Fn() -> String) {
        self.compared += 1;
        if !same {
            self.differed += 1;
            if self.differed <= 10 {
                println!("differs: {}", what());
            }
        }
    }

    fn say(&self, what: &str) -> bool {
        println!("{what}: {} compared, {} differed", self.compared, self.differed);
        self.differed == 0
    }

    // Both functions at one sequence: the prefix, and the character at the offset.
    fn sequence(&mut self, s: &[u8], at: usize) {
        let n = unsafe { chars_valid_prefix(s.as_ptr(), s.len() as u64) };
        let d = unsafe { chars_decode(s.as_ptr(), s.len() as u64, at as u64) };
        let (m, e) = (std_prefix(s) as u64, std_decode(s, at));
        self.note(n == m && d == e, || format!("{s:02X?} at {at}: prefix {n}, {m} by std; character {d:X}, {e:X} by std"));
    }
}

// Every sequence of no, one, two and three bytes.
#[cfg(linked)]
fn short_sequences(tally: &mut Tally) {
    tally.sequence(&[], 0);
    for a in 0..=255 {
        tally.sequence(&[a], 0);
        for b in 0..=255 {
            tally.sequence(&[a, b], 0);
            for c in 0..=255 {
                tally.sequence(&[a, b, c], 0);
            }
        }
    }
}

// The range ends of the Unicode Standard's Table 3-7, in whichever column, each with the bytes below and above it, and the usual suspects.
#[cfg(linked)]
fn boundary_bytes() -> Vec<u8> {
    let ends = [
        0x00, 0x7F, 0x80, 0x8F, 0x90, 0x9F, 0xA0, 0xBF, 0xC2, 0xDF, 0xE0, 0xE1, 0xEC, 0xED, 0xEE, 0xEF, 0xF0, 0xF1, 0xF3, 0xF4,
    ];
    let mut bytes = vec![0x00, 0x7F, 0x80, 0xBF, 0xC0, 0xFF];
    for end in ends {
        bytes.extend([end, u8::saturating_sub(end, 1), end + 1]);
    }
    bytes.sort();
    bytes.dedup();
    bytes
}

// Every sequence of `more` boundary bytes behind what `s` holds, then again with an `a` after it.
#[cfg(linked)]
fn behind(tally: &mut Tally, bytes: &[u8], s: &mut Vec<u8>, at: usize, more: usize) {
    if more == 0 {
        tally.sequence(s, at);
        s.push(b'a');
        tally.sequence(s, at);
        s.pop();
        return;
    }
    for &b in bytes {
        s.push(b);
        behind(tally, bytes, s, at, more - 1);
        s.pop();
    }
}

// Boundary sequences of four bytes, and cut short to three, two and one, each alone and after a character of one to four bytes.
#[cfg(linked)]
fn boundary_sequences(tally: &mut Tally) {
    let bytes = boundary_bytes();
    for before in ["", "a", "é", "€", "😀"] {
        for length in 1..=4 {
            let mut s = before.as_bytes().to_vec();
            behind(tally, &bytes, &mut s, before.len(), length);
        }
    }
}

// A character, or bytes that are none, behind each length of ASCII up to some blocks of sixty-four, and before others: the check looks at ASCII by
// blocks.
#[cfg(linked)]
fn within_ascii(tally: &mut Tally) {
    let middles: [&[u8]; 9] = [b"", "é".as_bytes(), "€".as_bytes(), "😀".as_bytes(), b"\x80", b"\xFF", b"\xC2", b"\xE2\x82", b"\xF0\x9F\x98"];
    for before in 0..=200 {
        for after in [0, 1, 15, 16, 17, 63, 64, 65, 80, 100, 200] {
            for middle in middles {
                let s = [&[b'a'; 200][..before], middle, &[b'b'; 200][..after]].concat();
                tally.sequence(&s, before);
            }
        }
    }
}

// Every scalar value: decoded where it stands, alone, between others and cut short, and at each offset inside and past it.
#[cfg(linked)]
fn scalar_values(tally: &mut Tally) {
    for c in '\0'..=char::MAX {
        let text = format!("é{c}z");
        let s = text.as_bytes();
        for (at, d) in text.char_indices() {
            let packed = unsafe { chars_decode(s.as_ptr(), s.len() as u64, at as u64) };
            let wanted = ((d.len_utf8() as u64) << 32) | d as u64;
            tally.note(packed == wanted, || format!("U+{:04X} at {at} of {text:?}: {packed:X}", d as u32));
        }
        for at in 0..=s.len() + 1 {
            tally.sequence(s, at);
        }
        for end in 2..=1 + c.len_utf8() {
            tally.sequence(&s[..end], 2);
        }
    }
}

// The four classes at each character up to U+FFFF, and beyond.
#[cfg(all(linked, published))]
fn classes(part: impl Iterator<Item = char>, tally: &mut Tally) {
    use published::token::published_class;
    for c in part {
        let bits = unsafe { chars_classes(c as u32) };
        let wanted: u32 = (0..4).map(|k| (published_class(k, c) as u32) << k).sum();
        tally.note(bits == wanted, || format!("U+{:04X}: classes {bits:04b}, published {wanted:04b}", c as u32));
    }
}

#[cfg(all(linked, published))]
fn compare_classes() -> bool {
    assert_eq!(char::UNICODE_VERSION, (16, 0, 0), "a rustc of another Unicode is no judge of the classes: set RUSTC");
    let (mut low, mut high) = (Tally::default(), Tally::default());
    classes('\0'..='\u{FFFF}', &mut low);
    classes('\u{10000}'..=char::MAX, &mut high);
    let same = low.say("classes up to U+FFFF, characters");
    high.say("classes above U+FFFF, characters") && same
}

#[cfg(all(linked, not(published)))]
fn compare_classes() -> bool {
    println!("classes: not compared, since no folder of token.rs was given");
    true
}

#[cfg(linked)]
fn compare() {
    let mut same = true;
    let parts: [(&str, fn(&mut Tally)); 4] = [
        ("every sequence of at most three bytes", short_sequences),
        ("boundary sequences of Table 3-7", boundary_sequences),
        ("within ASCII of many lengths", within_ascii),
        ("every scalar value, decoded and in context", scalar_values),
    ];
    for (what, part) in parts {
        let mut tally = Tally::default();
        part(&mut tally);
        same &= tally.say(what);
    }
    same &= compare_classes();
    if !same {
        std::process::exit(1);
    }
}

#[cfg(not(linked))]
fn compare() {
    eprintln!("utf8: built without the static library; only --summary is there");
    std::process::exit(2);
}

// The byte sequences that crates/utf8_runs walks: of length n with the first byte a, one for each k below tails(n). Of four bytes, the last
// two are taken from EDGES.
const EDGES: [u8; 4] = [0x7F, 0x80, 0xBF, 0xC0];

fn tails(n: usize) -> usize {
    [0, 1, 256, 65536, 4096][n]
}

fn sequence(n: usize, a: u8, k: usize) -> Vec<u8> {
    match n {
        1 => vec![a],
        2 => vec![a, k as u8],
        3 => vec![a, (k / 256) as u8, k as u8],
        _ => vec![a, (k / 16) as u8, EDGES[k / 4 % 4], EDGES[k % 4]],
    }
}

// For each length and first byte, how many sequences have a longest valid prefix of 0, 1, .. bytes; then the same for the length as a whole.
fn summary() {
    for n in 1..=4 {
        let mut all = [0u32; 5];
        for a in 0..=255 {
            let mut counts = [0u32; 5];
            for k in 0..tails(n) {
                let prefix = std_prefix(&sequence(n, a, k));
                counts[prefix] += 1;
                all[prefix] += 1;
            }
            println!("{n} {a:02x}{}", spelled(&counts));
        }
        println!("{n} all{}", spelled(&all));
    }
}

fn spelled(counts: &[u32; 5]) -> String {
    counts.iter().map(|c| format!(" {c}")).collect()
}

fn main() {
    match std::env::args().nth(1).as_deref() {
        None => compare(),
        Some("--summary") => summary(),
        Some(other) => {
            eprintln!("utf8: no option {other}");
            std::process::exit(2);
        }
    }
}
