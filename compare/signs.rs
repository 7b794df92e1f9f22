// RULES, "Operator sign": which scripts have a sign that the published tokenize does not know, and scripts that have some, in each kind of piece.
use super::scripts::{self, Random};
use super::{EXAMPLES, REFUSED, WIDENED};
use published::symbols::{is_math_or_other_symbol, RANGES};

// A sign past ASCII other than `⇒`.
pub fn is_new(c: char) -> bool {
    !c.is_ascii() && c != '\u{21D2}' && is_math_or_other_symbol(c)
}

// Is the script judged by the source that this program was built with? As it is published it judges the scripts without a new sign, and with the class
// widened (compare/published) the others. Bytes that are not UTF-8 have no characters.
pub fn is_judged(script: &[u8]) -> bool {
    let has_new = !script.is_ascii() && std::str::from_utf8(script).is_ok_and(|text| text.chars().any(is_new));
    has_new == WIDENED
}

// Signs of two bytes and of three, the first and the last circled letter, two that are not printable, and what Unicode 16.0 was the first to have;
// the sign that is published; and characters that are like signs and are none: of categories Sc, Sk, No, Pd and Po, So past U+FFFF, and a code without
// a character.
const CHARACTERS: [&str; 22] = [
    "\u{AC}", "\u{F7}", "\u{2264}", "\u{222A}", "\u{24B6}", "\u{24E9}", "\u{2044}", "\u{FFFC}", "\u{FFFD}", "\u{2427}", "\u{2428}", "\u{2429}",
    "\u{31E4}", "\u{31E5}", "\u{21D2}", "\u{20AC}", "\u{2C2}", "\u{24EA}", "\u{FE63}", "\u{A7}", "\u{1F600}", "\u{FFFE}",
];

// What stands before and behind: where one may begin a piece, go on in one, or stand in a text; and beside other signs, of ASCII too.
const PLACES: [(&str, &str); 40] = [
    ("", ""),
    ("a", ""),
    ("a", "b"),
    ("\u{4E00}", ""),
    ("_", ""),
    ("a_", ""),
    ("a_", "+"),
    ("a_+", "_"),
    ("a__", "\"\""),
    ("if", "if"),
    ("if_", ""),
    ("1", "2"),
    ("0x", "F"),
    ("=", ""),
    ("", "="),
    ("=", ">"),
    ("=>", ""),
    ("#", "//"),
    ("", "//"),
    ("", "/*"),
    ("/", "/"),
    ("/", "*"),
    ("", "/ /"),
    ("\\", "\\"),
    ("(", ")"),
    ("'", ""),
    ("'", "'"),
    ("'", "+'"),
    ("'a", ""),
    ("'a_", ""),
    ("'+", ""),
    ("';", ""),
    ("'; ", ""),
    ("'\\", "'"),
    ("\"", "\""),
    ("s\"$", "{"),
    ("`", "`"),
    ("//", "\n\u{2264}"),
    ("\n/*", "*/\u{2264}"),
    ("", "\n/*\n*/"),
];

fn placed(character: &str) -> impl Iterator<Item = Vec<u8>> + '_ {
    PLACES.iter().map(move |(before, behind)| format!("{before}{character}{behind}").into_bytes())
}

// Each in each place.
pub fn in_places() -> Vec<Vec<u8>> {
    CHARACTERS.iter().flat_map(|text| placed(text)).collect()
}

// Both ends of each range and the codes beside them, in those places that a number chooses.
pub fn at_ends() -> Vec<Vec<u8>> {
    let codes = RANGES.iter().flat_map(|&(low, high)| [low - 1, low, high, high + 1]);
    let characters: Vec<String> = codes.filter_map(char::from_u32).map(String::from).collect();
    let each = |(number, text): (usize, &String)| placed(text).skip(number % 5).step_by(5).collect::<Vec<_>>();
    characters.iter().enumerate().flat_map(each).collect()
}

// Those that crates/replay replays.
pub fn listed() -> Vec<Vec<u8>> {
    let mut list = [in_places(), at_ends()].concat();
    for number in 0..200 {
        let mut random = Random(!number);
        let script = scripts::contract(&mut random, number as usize / 4);
        list.push(signed(&mut random, &script));
    }
    list
}

// What is refused by 1 to 16, before and behind each character.
pub fn beside_refused() -> Vec<Vec<u8>> {
    let refused = EXAMPLES[REFUSED].iter();
    refused.flat_map(|other| CHARACTERS.iter().flat_map(move |text| [format!("{text}{other}").into_bytes(), format!("{other}{text}").into_bytes()])).collect()
}

// A copy with one to four of the characters put in.
pub fn signed(random: &mut Random, script: &[u8]) -> Vec<u8> {
    scripts::put_in(random, script, 4, &CHARACTERS)
}

// The table is as it was counted, and the characters are what they are called.
pub fn check() {
    assert_eq!(RANGES.len(), 119);
    assert_eq!(RANGES.iter().map(|(low, high)| high - low + 1).sum::<u32>(), 3677);
    let is = |text: &&&str| text.chars().all(is_new);
    assert_eq!(CHARACTERS.iter().filter(is).count(), 14);
    assert!(CHARACTERS[..14].iter().all(|text| is(&text)));
}
