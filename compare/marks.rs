// REQUESTS, "Direction marks": where a script has its first one, searched for over the characters of a str, and scripts that have marks and the
// characters beside them, in each kind of piece and before and behind what other numbers refuse.
#[cfg(linked)]
use super::scripts::{self, Random};
use super::{EXAMPLES, REFUSED};

pub fn is_mark(c: char) -> bool {
    matches!(c, '\u{202A}'..='\u{202E}' | '\u{2066}'..='\u{2069}')
}

pub fn first_mark(text: &str) -> Option<usize> {
    text.char_indices().find(|&(_, c)| is_mark(c)).map(|(at, _)| at)
}

// The marks, then their neighbours, which are taken: the code before and behind each range, and three that also say something of direction.
pub const MARKS: usize = 9;
pub const CHARACTERS: [&str; 16] = [
    "\u{202A}", "\u{202B}", "\u{202C}", "\u{202D}", "\u{202E}", "\u{2066}", "\u{2067}", "\u{2068}", "\u{2069}", "\u{2029}", "\u{202F}", "\u{2065}",
    "\u{206A}", "\u{200E}", "\u{200F}", "\u{61C}",
];

// What stands before and behind a character in each kind of piece, well made or not, and in the gaps.
const PIECES: [(&str, &str); 54] = [
    ("", ""),
    (" ", " "),
    ("a ", " b"),
    ("(", ")"),
    ("x\n", "\ny"),
    ("\r", "\n"),
    ("a\r\n", "\r\n"),
    ("//", ""),
    ("// a ", " b\nx"),
    ("//a\r", "\r\n"),
    ("/*", "*/"),
    ("/* /* ", " */ */ x"),
    ("/* /**/", "*/"),
    ("\n/*", "*/x"),
    ("/*", ""),
    ("/", "*a*/"),
    ("/*a*", "/"),
    ("\"", "\""),
    ("\"a\\n", "b\""),
    ("\"\\", "n\""),
    ("\"\\u00", "41\""),
    ("\"", ""),
    ("\"\"", "\""),
    ("\"\"\"", "\"\"\""),
    ("\"\"\"a\n", "b\n\"\"\"\""),
    ("\"\"\"a\"", "\"\"\"\""),
    ("\"\"\"", "\""),
    ("s\"", "\""),
    ("s\"a$", "b\\\""),
    ("s\"$", "{"),
    ("s\"\"\"", "\n\"\"\""),
    ("s", "\"a\""),
    ("`a`\"", "\""),
    ("`", "`"),
    ("`a ", " b`\"c\""),
    ("`", ""),
    ("'", "'"),
    ("'\\", "'"),
    ("'\\n", "'"),
    ("'a", "'"),
    ("'", ""),
    ("'", "ab"),
    ("'ab", "c"),
    ("'+", "+"),
    ("';", ""),
    ("a", "b"),
    ("_", "_"),
    ("a_", "+"),
    ("i", "f"),
    ("1", "2"),
    ("0x", "1F"),
    ("1", "L"),
    ("+", "-"),
    ("=", ">"),
];

pub fn in_piece(piece: usize, character: usize) -> String {
    let (before, behind) = PIECES[piece];
    format!("{before}{}{behind}", CHARACTERS[character])
}

// Every character in every piece.
pub fn in_pieces() -> Vec<Vec<u8>> {
    let piece = |piece| (0..CHARACTERS.len()).map(move |character| in_piece(piece, character).into_bytes());
    (0..PIECES.len()).flat_map(piece).collect()
}

// Every two of these, one behind the other: the first mark is the one that counts.
pub const PAIRS: u64 = (PIECES.len() * CHARACTERS.len()).pow(2) as u64;

pub fn pair(number: u64) -> Vec<u8> {
    let all = PIECES.len() * CHARACTERS.len();
    let one = |at: usize| in_piece(at / CHARACTERS.len(), at % CHARACTERS.len());
    (one(number as usize / all) + &one(number as usize % all)).into_bytes()
}

// What makes bytes no UTF-8: no beginning, a form too long, a surrogate, a mark cut short or with a byte too many, and a mark in four bytes.
const SPOILT: [&[u8]; 10] =
    [b"\x80", b"\xFF", b"a\xC0\x80", b"\xED\xA0\x80", b"\xE2", b"\xE2\x80", b"\xE2\x81", b"\xE2\x80\x2A", b"\xE2\x80\xAE\xAE", b"\xF0\x82\x80\xAE"];

// What is refused by 1 to 16, and by 18.
fn refused() -> impl Iterator<Item = &'static [u8]> {
    EXAMPLES[REFUSED].iter().map(|text| text.as_bytes()).chain(SPOILT)
}

// These before and behind each character alone, and with a line end between, so that most pieces are closed.
pub fn beside_refused() -> Vec<Vec<u8>> {
    let mut list = Vec::new();
    for other in refused() {
        for character in CHARACTERS {
            let character = character.as_bytes();
            list.push([character, other].concat());
            list.push([other, character].concat());
            list.push([b"/*", character, b"*/\n", other].concat());
            list.push([other, b"\n\"", character, b"\""].concat());
        }
    }
    list
}

// These before and behind each piece.
#[cfg(linked)]
pub fn pieces_beside_refused() -> Vec<Vec<u8>> {
    let pieces = in_pieces();
    let beside = |other: &'static [u8]| pieces.iter().flat_map(move |piece| [[other, piece].concat(), [piece, other].concat()]);
    refused().flat_map(beside).collect()
}

// Those that crates/replay replays.
pub fn listed() -> Vec<Vec<u8>> {
    [in_pieces(), beside_refused()].concat()
}

// Characters of each width, and of three bytes those that begin with each byte that is checked by a row of its own, or with a mark's.
#[cfg(linked)]
const FILLERS: [&str; 13] =
    [" ", "a", "\u{E9}", "\u{7FF}", "\u{928}", "\u{1200}", "\u{1780}", "\u{2019}", "\u{2208}", "\u{4E00}", "\u{D55C}", "\u{FF21}", "\u{1F600}"];

// A character behind so many others and before so many, in a comment or in a string, since code goes by blocks of up to sixty-four bytes.
#[cfg(linked)]
pub fn at_offsets() -> Vec<Vec<u8>> {
    let mut list = Vec::new();
    for filler in FILLERS {
        for offset in 0..=140 {
            for (number, character) in CHARACTERS.iter().enumerate() {
                let (open, close) = [("// ", ""), ("\"", "\"")][(offset + number) % 2];
                let behind = [0, 1, 20, 70][(offset / 2 + number) % 4];
                list.push(format!("{open}{}{character}{}{close}", filler.repeat(offset), filler.repeat(behind)).into_bytes());
            }
        }
    }
    list
}

// A mark, and bytes that are no UTF-8 at so many bytes behind it: 18 goes before 29, however far they are.
#[cfg(linked)]
pub fn before_spoilt() -> Vec<Vec<u8>> {
    let mut list = Vec::new();
    for (number, bytes) in SPOILT.iter().enumerate() {
        for offset in 0..=70 {
            for distance in (0..=140).step_by(1 + offset % 3) {
                let mark = CHARACTERS[(number + offset + distance) % MARKS];
                list.push([&vec![b'a'; offset], mark.as_bytes(), &vec![b' '; distance], bytes].concat());
                list.push([mark.as_bytes(), "\u{4E00}".repeat(distance / 3).as_bytes(), bytes, mark.as_bytes()].concat());
            }
        }
    }
    list
}

// Every three bytes of which the first begins a character of three: alone, behind such a character, and before a mark.
#[cfg(linked)]
pub const THREES: u64 = 3 << 20;

#[cfg(linked)]
pub fn three(number: u64) -> Vec<u8> {
    let three = [0xE0 | (number >> 16 & 15) as u8, (number >> 8) as u8, number as u8];
    let (before, behind) = [("", ""), ("\u{4E00}", ""), ("", CHARACTERS[number as usize % MARKS])][(number >> 20) as usize];
    [before.as_bytes(), &three, behind.as_bytes()].concat()
}

// A copy with one to three of the characters put in. Into every other copy only neighbours.
#[cfg(linked)]
pub fn marked(random: &mut Random, script: &[u8]) -> Vec<u8> {
    let first = if random.below(2) == 0 { MARKS } else { 0 };
    scripts::put_in(random, script, 3, &CHARACTERS[first..])
}

// The characters are what they are called.
pub fn check() {
    let all: Vec<String> = (0..=0x10_FFFF).filter_map(char::from_u32).filter(|&c| is_mark(c)).map(String::from).collect();
    assert_eq!(all, CHARACTERS[..MARKS]);
    assert!(CHARACTERS[MARKS..].iter().all(|text| first_mark(text).is_none()));
}
