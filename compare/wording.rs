// Rewrites the comments of random scripts, each as many bytes long as it was, and compares what ergo_tokenize, ergo_tokenize_contact and
// ergo_measure, exports of crates/ergo, say of a script before and after. Built and run by compare/wording.
//
//     wording [--count N] [--seed S]    draw N scripts, and print how many comments were rewritten, how many calls compared and how many scripts
//                                       differed; exit status 1 if any differed, or if a control did not come out
//
// That two such scripts have the same records, and that both tokenizers show a host the same of them, is proved in crates/wording (REQUESTS,
// "Comment wording"); here it is seen by running. What is a comment is judged by a scanner of its own, written from the sentences of RULES, which
// looks only at what stands outside of the tokens. What the theorem does not speak of is seen by running alone: ergo_measure, and refusals 19, 27 and
// 28, which are to be alike too. Since a comparison is worth something only if it can fail, there are controls: changes of each script that must
// show, and a few scripts in which a block comment becomes a line comment.
#[allow(dead_code)]
mod scripts;

use scripts::{contract, Alphabet, Random, ALPHABETS};
use std::collections::BTreeMap;
use std::fmt::Display;
use std::ops::Range;

#[link(name = "ergo", kind = "static")]
extern "C" {
    fn ergo_tokenize(script: *const u8, n: u64, records: *mut u8, m: u64, answer: *mut u8, k: u64) -> u32;
    fn ergo_tokenize_contact(script: *const u8, n: u64, records: *mut u8, m: u64, answer: *mut u8, k: u64) -> u32;
    fn ergo_measure(script: *const u8, n: u64, answer: *mut u8, k: u64) -> u32;
}

// ---- calls

type Tokenize = unsafe extern "C" fn(*const u8, u64, *mut u8, u64, *mut u8, u64) -> u32;

const FUNCTIONS: [&str; 3] = ["ergo_tokenize", "ergo_tokenize_contact", "ergo_measure"];
const TOKENIZERS: [Tokenize; 2] = [ergo_tokenize, ergo_tokenize_contact];
const CONTACT: usize = 1;
const MEASURE: usize = 2;

const BLOCK: usize = 16;
const MEASURE_BLOCK: usize = 32;

// RULES, "Record bound": "A script of n bytes that has a reading needs at most 17 times n plus 13 record bytes."
const fn bound(n: usize) -> usize {
    17 * n + HEAD
}

// What a call hands back and leaves: the number, and every byte of the records buffer and of the answer block.
#[derive(PartialEq)]
struct Answer {
    number: u32,
    records: Vec<u8>,
    block: Vec<u8>,
}

const BEHIND: usize = 8;

// Bytes as they are before a call, and a few behind them that are not lent. The mask makes them others for another script.
fn lent(length: usize, mask: u8) -> Vec<u8> {
    (0..length + BEHIND).map(|i| (i as u8).wrapping_mul(29) ^ mask).collect()
}

// After a call, those behind what was lent are as they were.
fn only_lent(after: &[u8], length: usize, mask: u8) -> bool {
    after[length..] == lent(length, mask)[length..]
}

fn tokenized(tokenize: Tokenize, script: &[u8], length: usize, mask: u8) -> Answer {
    let (mut records, mut block) = (lent(length, mask), lent(BLOCK, !mask));
    let (r, a) = (records.as_mut_ptr(), block.as_mut_ptr());
    let number = unsafe { tokenize(script.as_ptr(), script.len() as u64, r, length as u64, a, BLOCK as u64) };
    assert!(only_lent(&records, length, mask) && only_lent(&block, BLOCK, !mask), "written behind what was lent, for {}", shown(script));
    Answer { number, records, block }
}

fn measured(script: &[u8], mask: u8) -> Answer {
    let mut block = lent(MEASURE_BLOCK, mask);
    let number = unsafe { ergo_measure(script.as_ptr(), script.len() as u64, block.as_mut_ptr(), MEASURE_BLOCK as u64) };
    assert!(only_lent(&block, MEASURE_BLOCK, mask), "written behind the block, for {}", shown(script));
    Answer { number, records: Vec::new(), block }
}

impl Answer {
    // RULES, "Answer": the record bytes stand at 12.
    fn need(&self) -> usize {
        four(&self.block, 12)
    }

    // "On acceptance the records stand at the buffer's start".
    fn roll(&self) -> &[u8] {
        &self.records[..self.need()]
    }
}

// ---- tokens

// What a record tells of its token, a line end or Eof too.
struct Token {
    kind: usize,
    start: usize,
    end: usize,
}

const HEAD: usize = 13;

// RULES, "Kinds".
const INT_LIT: usize = 4;
const LONG_LIT: usize = 5;

fn two(bytes: &[u8], at: usize) -> usize {
    u16::from_le_bytes(bytes[at..at + 2].try_into().unwrap()) as usize
}

fn four(bytes: &[u8], at: usize) -> usize {
    u32::from_le_bytes(bytes[at..at + 4].try_into().unwrap()) as usize
}

// RULES, "Record": at 0 the "length of the whole record, values included", then kind, start and "end, not included".
fn tokens(roll: &[u8]) -> Vec<Token> {
    let (mut list, mut at) = (Vec::new(), 0);
    while at < roll.len() {
        let length = two(roll, at);
        assert!(length >= HEAD, "a record of {length} bytes");
        list.push(Token { kind: two(roll, at + 2), start: four(roll, at + 4), end: four(roll, at + 8) });
        at += length;
    }
    list
}

// ---- the scanner

#[derive(Clone, Copy, PartialEq)]
enum Kind {
    Line,
    Block,
}

const KINDS: [&str; 2] = ["line comments", "block comments"];

#[derive(Clone, Copy, PartialEq)]
struct Comment {
    kind: Kind,
    start: usize,
    end: usize,
}

impl Comment {
    // The bytes between what opens it and what closes it.
    fn inside(self) -> Range<usize> {
        match self.kind {
            Kind::Line => self.start + 2..self.end,
            Kind::Block => self.start + 2..self.end - 2,
        }
    }
}

fn begins(script: &[u8], at: usize, text: &str) -> bool {
    script[at..].starts_with(text.as_bytes())
}

// RULES, "Line end": "LF, or CR LF. A CR that no LF follows is no line end".
fn ends_line(script: &[u8], at: usize) -> bool {
    begins(script, at, "\n") || begins(script, at, "\r\n")
}

// RULES, "Line comment": "`//` and all that follows up to the first line end, which is not part of it, or up to the script's end."
fn line_comment_end(script: &[u8], start: usize) -> usize {
    (start + 2..script.len()).find(|&at| ends_line(script, at)).unwrap_or(script.len())
}

// RULES, "Block comment": "`/*`, then items, then `*/`. An item is a whole block comment, or one character at which neither `/*` nor `*/` begins."
// Neither begins inside a character, so it goes by bytes. None where the comment is open.
fn block_comment_end(script: &[u8], start: usize) -> Option<usize> {
    let mut at = start + 2;
    while at < script.len() {
        if begins(script, at, "*/") {
            return Some(at + 2);
        }
        at = if begins(script, at, "/*") { block_comment_end(script, at)? } else { at + 1 };
    }
    None
}

fn comment(script: &[u8], start: usize) -> Option<Comment> {
    let (kind, end) = match script.get(start..start + 2)? {
        b"//" => (Kind::Line, line_comment_end(script, start)),
        b"/*" => (Kind::Block, block_comment_end(script, start)?),
        _ => return None,
    };
    Some(Comment { kind, start, end })
}

// RULES, "Blank": "One space or one tab."
fn is_blank(byte: u8) -> bool {
    matches!(byte, b' ' | b'\t')
}

// The comments of a script, which stand outside of its tokens. None where anything but blanks and whole comments stands there.
fn comments(script: &[u8], tokens: &[Token]) -> Option<Vec<Comment>> {
    let (mut list, mut at) = (Vec::new(), 0);
    for token in tokens {
        while at < token.start {
            match comment(script, at) {
                Some(comment) => {
                    at = comment.end;
                    list.push(comment);
                }
                None if is_blank(script[at]) => at += 1,
                None => return None,
            }
        }
        if at > token.start {
            return None;
        }
        at = token.end;
    }
    Some(list)
}

// REQUESTS, "Direction mark": "one of U+202A to U+202E and U+2066 to U+2069".
const MARKS: [char; 9] = ['\u{202A}', '\u{202B}', '\u{202C}', '\u{202D}', '\u{202E}', '\u{2066}', '\u{2067}', '\u{2068}', '\u{2069}'];

// Well-formed UTF-8, with no direction mark.
fn is_clean(script: &[u8]) -> bool {
    std::str::from_utf8(script).is_ok_and(|text| !text.contains(MARKS))
}

// REQUESTS, "Comment wording": is the other script the same but for comments, and UTF-8 without a mark? The same comments must stand in it, and all
// other bytes must be the same. Then the pieces are too: of a comment behind it a token's shape asks at most that one opens there.
fn same_but_comments(script: &[u8], other: &[u8], tokens: &[Token], list: &[Comment]) -> bool {
    let mut back = other.to_vec();
    for inside in list.iter().map(|comment| comment.inside()) {
        back[inside.clone()].copy_from_slice(&script[inside]);
    }
    back == script && is_clean(other) && comments(other, tokens).is_some_and(|found| found == list)
}

// ---- texts of comments

struct Sort {
    name: &'static str,
    // With fewer bytes inside it would be letters only.
    least: usize,
    // Is it of block comments only?
    block: bool,
    // A text of so many bytes.
    draw: fn(&mut Random, usize) -> String,
}

const SORTS: [Sort; 9] = [
    Sort { name: "letters", least: 1, block: false, draw: letters },
    Sort { name: "Cyrillic", least: 2, block: false, draw: |random, length| spelled(random, length, 0x410, 0x44F) },
    Sort { name: "CJK", least: 3, block: false, draw: |random, length| spelled(random, length, 0x4E00, 0x9FA5) },
    Sort { name: "emoji", least: 4, block: false, draw: |random, length| spelled(random, length, 0x1F300, 0x1F64F) },
    Sort { name: "mixed", least: 1, block: false, draw: mixed },
    Sort { name: "like code", least: 1, block: false, draw: |random, length| pieces_of(random, length, &CODE) },
    Sort { name: "signs at the bounds", least: 1, block: false, draw: at_bounds },
    Sort { name: "lines", least: 1, block: true, draw: |random, length| pieces_of(random, length, &LINES) },
    Sort { name: "nested", least: 4, block: true, draw: nested },
];
const LETTERS: usize = 0;

// What opens, closes and escapes in other pieces, CR, tabs and other controls, a byte order mark, line ends of other texts, and direction marks'
// neighbours.
const CODE: [&str; 40] = [
    "\"", "\"\"\"", "'", "`", "\\", "\\\"", "\\u", "//", "/", "*", "\r", "\t", " ", "$", "{", "${", "}", "(", ")", ";", "=", "=>", "#", "_", "0x",
    "if", "7", "x", "\0", "\u{1}", "\u{1B}", "\u{7F}", "\u{85}", "\u{FEFF}", "\u{2028}", "\u{2029}", "\u{202F}", "\u{2065}", "\u{206A}", "\u{FFFD}",
];
const LINES: [&str; 10] = ["\n", "\r\n", "\n\n", "\n\r\n", "\r", "x", " ", "\t", "// ", "\u{436}"];

// What could join with the signs that open a comment and close it.
const FIRST: [&str; 7] = ["/", "//", "*", "**", "***", "/ *", "/\r"];
const LAST: [&str; 8] = ["*", "**", "***", "/", " /", "* /", "\r", "*\r"];

fn pick<'a>(random: &mut Random, list: &[&'a str]) -> &'a str {
    list[random.below(list.len())]
}

fn letters(random: &mut Random, length: usize) -> String {
    (0..length).map(|_| (b'a' + random.below(26) as u8) as char).collect()
}

// Pieces, as long as one fits. The bytes that are left are letters, before them or behind.
fn filled(random: &mut Random, length: usize, push: impl Fn(&mut Random, &mut String)) -> String {
    let (mut text, mut whole) = (String::new(), 0);
    while text.len() <= length {
        whole = text.len();
        push(random, &mut text);
    }
    text.truncate(whole);
    let rest = letters(random, length - whole);
    if random.below(2) == 0 {
        rest + &text
    } else {
        text + &rest
    }
}

fn pieces_of(random: &mut Random, length: usize, list: &[&str]) -> String {
    filled(random, length, |random, text| text.push_str(pick(random, list)))
}

// A character of a range, both ends included.
fn character(random: &mut Random, low: u32, high: u32) -> char {
    let code = low + random.below((high - low + 1) as usize) as u32;
    char::from_u32(code).unwrap_or('\u{FFFD}')
}

fn spelled(random: &mut Random, length: usize, low: u32, high: u32) -> String {
    filled(random, length, |random, text| text.push(character(random, low, high)))
}

// Any characters, those of one, two, three and four bytes equally often.
fn mixed(random: &mut Random, length: usize) -> String {
    filled(random, length, |random, text| {
        let (low, high) = [(0x20, 0x7E), (0x80, 0x7FF), (0x800, 0xFFFF), (0x1_0000, 0x10_FFFF)][random.below(4)];
        text.push(character(random, low, high));
    })
}

fn at_bounds(random: &mut Random, length: usize) -> String {
    let (first, last) = (pick(random, &FIRST), pick(random, &LAST));
    let between = letters(random, length.saturating_sub(first.len() + last.len()));
    let mut text = format!("{first}{between}{last}");
    text.truncate(length);
    text
}

// Whole block comments, in one another and behind one another, with letters between. At times many open in a row, at times directly behind what opens
// the outermost.
fn nested(random: &mut Random, length: usize) -> String {
    if length < 4 {
        return letters(random, length);
    }
    let row = if random.below(2) == 0 { 1 } else { 1 + random.below(length / 4) };
    let rest = length - 4 * row;
    let before = if random.below(2) == 0 { 0 } else { random.below(rest + 1) };
    let inside = random.below(rest - before + 1);
    let (open, close) = ("/*".repeat(row), "*/".repeat(row));
    letters(random, before) + &open + &nested(random, inside) + &close + &nested(random, rest - before - inside)
}

// The number of a sort for a comment of this kind, with so many bytes inside. Where there are none, each sort of one byte gives an empty text.
fn fitting(random: &mut Random, kind: Kind, length: usize) -> usize {
    let fits = |sort: &Sort| sort.least <= length.max(1) && (kind == Kind::Block || !sort.block);
    let list: Vec<usize> = (0..SORTS.len()).filter(|&number| fits(&SORTS[number])).collect();
    list[random.below(list.len())]
}

// ---- scripts with many comments

const WORDS: [&str; 17] =
    ["a", "x1", "_", "__", "a_b", "$", "val", "\u{E9}", "\u{2170}", "a_//", "a_/*", "__*/", "if", "else", "case", "true", "return"];
const NUMBERS: [&str; 12] = ["0", "7", "42", "007", "1234567", "2147483647", "0x1F", "0x", "12L", "0xFFl", "0L", "99999999l"];
const STRINGS: [&str; 16] = [
    "\"\"",
    "\"a\"",
    "\"//\"",
    "\"/* \"",
    "\"a */ // b\"",
    "\"\\\"/*\\\"\"",
    "\"a\r\"",
    "\"\"\"// \n/* \r\n\"\"\"",
    "\"\"\"*/\"\"\"\"",
    "\"\"\"/* \"\" */\"\"\"",
    "s\"// $x\"",
    "s\"/*\\\"",
    "s\"\"\"/*\n*/\"\"\"",
    "`/*`\"*/\"",
    "a_//\"/*\"",
    "__/*\"\"\"//\n\"\"\"",
];
const QUOTED: [&str; 13] = ["'/'", "'*'", "'\\n'", "'\\42'", "'a'", "'sym", "'if", "'+", "';", "'*/", "`a`", "`// b`", "`/*\r\n`"];
const SIGNS: [&str; 16] = ["(", ")", "[", "]", "{", "}", ",", ";", ".", "/ /", "/ *", "*/", "::", "&&", "\\", "!"];
const TOKENS: [&[&str]; 5] = [&WORDS, &NUMBERS, &STRINGS, &QUOTED, &SIGNS];

// For RULES, "Operator" and "Keywords": a run of signs stops before a comment, and where one follows directly the run is no keyword.
const OPERATORS: [&str; 16] = ["+", "-", "*", "**", "/", "=", "=>", ":", "#", "@", "==", "<", "\u{21D2}", "\u{2264}", "\\", "\u{F7}="];

fn some_token(random: &mut Random) -> &'static str {
    let list = TOKENS[random.below(TOKENS.len())];
    pick(random, list)
}

const BLANKS: [&str; 4] = ["  ", "\t", " \t ", "                     "];

// How many bytes a comment has inside: mostly few.
fn some_length(random: &mut Random) -> usize {
    let most = [1, 4, 12, 12, 40, 40, 40, 40, 40, 200, 200, 700][random.below(12)];
    random.below(most)
}

fn some_text(random: &mut Random, kind: Kind) -> String {
    let length = some_length(random);
    let sort = &SORTS[fitting(random, kind, length)];
    (sort.draw)(random, length)
}

fn some_line_comment(random: &mut Random) -> String {
    format!("//{}", some_text(random, Kind::Line))
}

// Texts that would close it too early, or leave it open, are thrown away.
fn some_block_comment(random: &mut Random) -> String {
    loop {
        let text = format!("/*{}*/", some_text(random, Kind::Block));
        if block_comment_end(text.as_bytes(), 0) == Some(text.len()) {
            return text;
        }
    }
}

fn some_line_end(random: &mut Random) -> &'static str {
    pick(random, &["\n", "\n", "\r\n"])
}

// A script of at least so many bytes. Often a comment ends it, with no line end behind.
fn commented(random: &mut Random, length: usize) -> Vec<u8> {
    let mut text = String::new();
    while text.len() < length {
        match random.below(12) {
            0..=2 => text += some_token(random),
            3 => text += pick(random, &OPERATORS),
            4 => text += pick(random, &BLANKS),
            5..=6 => text += some_line_end(random),
            7..=9 => text += &some_block_comment(random),
            _ => text = text + &some_line_comment(random) + some_line_end(random),
        }
        if random.below(2) == 0 {
            text.push(' ');
        }
    }
    match random.below(4) {
        0 => text += &some_line_comment(random),
        1 => text += &some_block_comment(random),
        _ => {}
    }
    text.into_bytes()
}

// Two texts of an alphabet in which comments can be written, one behind the other.
fn short(random: &mut Random) -> Vec<u8> {
    let writes = |alphabet: &&Alphabet| alphabet.pieces.contains(&"/") || alphabet.pieces.contains(&"//");
    let list: Vec<&Alphabet> = ALPHABETS.iter().filter(writes).collect();
    let alphabet = list[random.below(list.len())];
    let mut text = || {
        let mut text = Vec::new();
        alphabet.text(random.next() % alphabet.texts(), &mut text);
        text
    };
    [text(), text()].concat()
}

// Few are long, and some of these are too long for a contact.
fn script_length(random: &mut Random) -> usize {
    match random.below(60) {
        0 => random.below(6000),
        1..=9 => random.below(1000),
        _ => random.below(300),
    }
}

// Where scripts come from: of eight, five have many comments, and one is a contract.
const SOURCES: [&str; 3] = ["with many comments", "contracts", "short texts"];

fn source(number: u64) -> usize {
    [0, 0, 0, 0, 0, 1, 2, 2][(number % 8) as usize]
}

fn some_script(random: &mut Random, source: usize) -> Vec<u8> {
    let length = script_length(random);
    match source {
        0 => commented(random, length),
        1 => contract(random, length),
        _ => short(random),
    }
}

// ---- controls

// An accepted script, the mask of what is lent for it, what ergo_tokenize said of it, its tokens and its comments.
struct Case<'a> {
    script: &'a [u8],
    mask: u8,
    answer: Answer,
    tokens: &'a [Token],
    comments: &'a [Comment],
}

impl Case<'_> {
    // What it says of another script, with as much lent.
    fn asked(&self, other: &[u8]) -> Answer {
        tokenized(ergo_tokenize, other, bound(self.script.len()), self.mask)
    }

    // Is it accepted too, with as many tokens and record bytes, and with another roll?
    fn shows(&self, other: &[u8]) -> bool {
        let answer = self.asked(other);
        answer.number == 0 && answer.block == self.answer.block && answer != self.answer
    }

    // Is it refused by this number, at this place? REQUESTS, "Refusal of a mark": "The block has the number and the place, and zeros behind them; the
    // records buffer is left as it was." So it is with 18.
    fn refuses(&self, other: &[u8], number: u32, place: usize) -> bool {
        let mut wanted = Answer { number, records: lent(bound(other.len()), self.mask), block: lent(BLOCK, !self.mask) };
        wanted.block[..BLOCK].copy_from_slice(&[number, place as u32, 0, 0].map(u32::to_le_bytes).concat());
        self.asked(other) == wanted
    }
}

// A script that is changed in one place, and whether that shows as it is to show. None where there is no such place.
type Control = fn(&mut Random, &Case) -> Option<(Vec<u8>, bool)>;

const CONTROLS: [(&str, Control); 4] = [
    ("a byte more in a comment", longer),
    ("another digit in a number", other_digit),
    ("a direction mark in a comment", marked),
    ("a byte that is no UTF-8 in a comment", ill_formed),
];

fn some_place(random: &mut Random, places: &[usize]) -> Option<usize> {
    (!places.is_empty()).then(|| places[random.below(places.len())])
}

// A space directly behind what opens a comment moves what stands behind it, Eof at least.
fn longer(random: &mut Random, case: &Case) -> Option<(Vec<u8>, bool)> {
    let places: Vec<usize> = case.comments.iter().map(|comment| comment.inside().start).collect();
    let at = some_place(random, &places)?;
    let mut other = case.script.to_vec();
    other.insert(at, b' ');
    let came_out = case.shows(&other);
    Some((other, came_out))
}

// The place of the last digit of an IntLit or a LongLit of base ten that has at most eight: with any digit there it stays below the limit.
fn last_digit(script: &[u8], token: &Token) -> Option<usize> {
    let text = &script[token.start..token.end];
    let digits = text.strip_suffix(b"L").or(text.strip_suffix(b"l")).unwrap_or(text);
    let is = [INT_LIT, LONG_LIT].contains(&token.kind) && digits.len() <= 8 && digits.iter().all(u8::is_ascii_digit);
    is.then(|| token.start + digits.len() - 1)
}

// Its value is another one. The new digit is no 0, since an `x` may follow.
fn other_digit(random: &mut Random, case: &Case) -> Option<(Vec<u8>, bool)> {
    let places: Vec<usize> = case.tokens.iter().filter_map(|token| last_digit(case.script, token)).collect();
    let at = some_place(random, &places)?;
    let mut other = case.script.to_vec();
    while other[at] == case.script[at] {
        other[at] = b'1' + random.below(9) as u8;
    }
    let came_out = case.shows(&other);
    Some((other, came_out))
}

// The places inside a comment where one or more characters take three bytes.
fn places_of_three(script: &[u8], comment: &Comment) -> Vec<usize> {
    let inside = comment.inside();
    let within = |at: usize| script.get(at).is_some_and(|byte| byte & 0xC0 == 0x80);
    (inside.start..inside.end.saturating_sub(2)).filter(|&at| !within(at) && !within(at + 3)).collect()
}

// REQUESTS, "Refusal of a mark": 29, at "the first mark".
fn marked(random: &mut Random, case: &Case) -> Option<(Vec<u8>, bool)> {
    let places: Vec<usize> = case.comments.iter().flat_map(|comment| places_of_three(case.script, comment)).collect();
    let at = some_place(random, &places)?;
    let mut other = case.script.to_vec();
    MARKS[random.below(MARKS.len())].encode_utf8(&mut other[at..at + 3]);
    let came_out = case.refuses(&other, 29, at);
    Some((other, came_out))
}

// RULES, "Refusals of a call": 18, at "the length of the longest valid prefix". No character of UTF-8 has the byte FF.
fn ill_formed(random: &mut Random, case: &Case) -> Option<(Vec<u8>, bool)> {
    let is_ascii = |at: &usize| case.script[*at].is_ascii();
    let places: Vec<usize> = case.comments.iter().flat_map(|comment| comment.inside()).filter(is_ascii).collect();
    let at = some_place(random, &places)?;
    let mut other = case.script.to_vec();
    other[at] = 0xFF;
    let came_out = case.refuses(&other, 18, at);
    Some((other, came_out))
}

// RULES, "Cut": a block comment behind a line end and before the script's end gives Eof the cut 1; "A line comment never sets a cut." In each pair
// the last comment is of the one kind and of the other, with the same bounds, and all else is the same.
const TWO_KINDS: [(&str, &str); 9] = [
    ("a\n/**/", "a\n//**"),
    ("a\n/**/", "a\n//*/"),
    ("\n/*b*/", "\n//b*/"),
    ("a\r\n\t/* b */", "a\r\n\t// b */"),
    ("a // b\n/*/**/*/", "a // b\n///**/*/"),
    ("/**/\n/*\u{436}*/", "/**/\n//\u{436}*/"),
    ("{\n\n/*\"\r\\*/", "{\n\n//\"\r\\*/"),
    ("7\n/**/\n/* */", "7\n/**/\n// */"),
    ("s\"/*\"\n \n /*x*/", "s\"/*\"\n \n //x*/"),
];

// The rolls are the same but for Eof's cut, which is their last byte.
fn two_kinds(block: &str, line: &str) -> bool {
    let [one, two] = [block, line].map(|script| tokenized(ergo_tokenize, script.as_bytes(), bound(script.len()), 0));
    let (Some((one_cut, one_head)), Some((two_cut, two_head))) = (one.roll().split_last(), two.roll().split_last()) else { return false };
    [one.number, two.number] == [0, 0] && one_head == two_head && [*one_cut, *two_cut] == [1, 0] && one.block == two.block
}

// ---- comparing

const TRIES: usize = 4;
const MOST_SHOWN: usize = 20;

#[derive(Default)]
struct Bench {
    drawn: [u64; SOURCES.len()],
    accepted: [u64; SOURCES.len()],
    rewritten_scripts: u64,
    differed: u64, // scripts
    faults: usize,
    // Comments with another text, by kind and sort; candidates that were no such text; comments for which no candidate was one.
    rewritten: [[u64; SORTS.len()]; KINDS.len()],
    thrown: u64,
    given_up: u64,
    // Pairs of calls, by function and by the number that was handed back.
    numbers: [BTreeMap<u32, u64>; FUNCTIONS.len()],
    controls: [u64; CONTROLS.len()],
    two_kinds: u64,
}

fn shown(script: &[u8]) -> String {
    format!("`{}`", script.escape_ascii())
}

// Where two blocks or two buffers first differ.
fn first_other(name: &str, one: &[u8], two: &[u8]) -> String {
    match one.iter().zip(two).position(|(x, y)| x != y) {
        Some(at) => format!("byte {at} of the {name} is {} and {}", one[at], two[at]),
        None => format!("the {name} is alike"),
    }
}

fn difference(one: &Answer, two: &Answer) -> String {
    let (block, buffer) = (first_other("block", &one.block, &two.block), first_other("buffer", &one.records, &two.records));
    format!("numbers {} and {}; {block}; {buffer}", one.number, two.number)
}

impl Bench {
    fn fault(&mut self, what: &str, scripts: &[&[u8]]) {
        self.faults += 1;
        if self.faults <= MOST_SHOWN {
            println!("differs: {what}");
            scripts.iter().for_each(|script| println!("    {}", shown(script)));
        }
    }

    // Gives a comment another text of as many bytes: the first of some candidates that leaves it the comment it is, else letters.
    fn reword(&mut self, random: &mut Random, case: &Case, other: &mut [u8], comment: Comment) {
        let inside = comment.inside();
        let old = &case.script[inside.clone()];
        for number in 0.. {
            let given_up = number >= TRIES;
            let sort = if given_up { LETTERS } else { fitting(random, comment.kind, inside.len()) };
            other[inside.clone()].copy_from_slice((SORTS[sort].draw)(random, inside.len()).as_bytes());
            if &other[inside.clone()] == old {
                continue;
            }
            if same_but_comments(case.script, other, case.tokens, case.comments) {
                self.rewritten[comment.kind as usize][sort] += 1;
                self.given_up += given_up as u64;
                return;
            }
            self.thrown += 1;
        }
    }

    // Rewrites all comments that have something inside, or some of them, at least one. None where there is none.
    fn rewrite(&mut self, random: &mut Random, case: &Case) -> Option<Vec<u8>> {
        let list: Vec<Comment> = case.comments.iter().copied().filter(|comment| !comment.inside().is_empty()).collect();
        if list.is_empty() {
            return None;
        }
        let mut other = case.script.to_vec();
        let (all, one) = (random.below(2) == 0, random.below(list.len()));
        for (number, comment) in list.into_iter().enumerate() {
            if all || number == one || random.below(2) == 0 {
                self.reword(random, case, &mut other, comment);
            }
        }
        Some(other)
    }

    // Two answers of a function, which are to be the same and to have this number; or that of a limit, which a contact may be over.
    fn same(&mut self, scripts: [&[u8]; 2], function: usize, number: u32, answers: [Answer; 2]) {
        let [one, two] = answers;
        *self.numbers[function].entry(one.number).or_default() += 1;
        let over = function == CONTACT && [27, 28].contains(&one.number);
        if one != two || one.number != number && !over {
            self.fault(&format!("{}, wanted number {number}: {}", FUNCTIONS[function], difference(&one, &two)), &scripts);
        }
    }

    // Both scripts, by each function, with what is enough for every script of so many bytes, and at times also with just what they need or with less.
    fn compare(&mut self, random: &mut Random, case: &Case, other: &[u8]) {
        let (scripts, need) = ([case.script, other], case.answer.need());
        let mut lengths = vec![bound(other.len())];
        match random.below(4) {
            0 => lengths.push(random.below(need)),
            1 => lengths.push(need),
            _ => {}
        }
        for length in lengths {
            let number = if length < need { 19 } else { 0 };
            for (function, tokenize) in TOKENIZERS.into_iter().enumerate() {
                self.same(scripts, function, number, scripts.map(|script| tokenized(tokenize, script, length, case.mask)));
            }
        }
        self.same(scripts, MEASURE, 0, scripts.map(|script| measured(script, case.mask)));
    }

    fn control(&mut self, random: &mut Random, case: &Case) {
        for (number, (name, control)) in CONTROLS.into_iter().enumerate() {
            if let Some((other, came_out)) = control(random, case) {
                self.controls[number] += 1;
                if !came_out {
                    self.fault(&format!("a control, {name}, does not come out"), &[case.script, &other]);
                }
            }
        }
    }

    fn accepted_script(&mut self, random: &mut Random, script: &[u8], mask: u8, answer: Answer) {
        let tokens = tokens(answer.roll());
        let Some(comments) = comments(script, &tokens) else {
            return self.fault("not only blanks and comments stand outside of the tokens", &[script]);
        };
        let case = Case { script, mask, answer, tokens: &tokens, comments: &comments };
        if let Some(other) = self.rewrite(random, &case) {
            self.rewritten_scripts += 1;
            self.compare(random, &case, &other);
        }
        if !comments.is_empty() {
            self.control(random, &case);
        }
    }

    fn script(&mut self, seed: u64, number: u64) {
        let mut random = Random(seed ^ number.wrapping_mul(0xD6E8_FEB8_6659_FD93));
        let (source, mask) = (source(number), number as u8);
        let script = some_script(&mut random, source);
        let answer = tokenized(ergo_tokenize, &script, bound(script.len()), mask);
        self.drawn[source] += 1;
        if answer.number == 0 {
            self.accepted[source] += 1;
            let before = self.faults;
            self.accepted_script(&mut random, &script, mask, answer);
            self.differed += (self.faults > before) as u64;
        }
    }

    fn pair(&mut self, block: &str, line: &str) {
        self.two_kinds += 1;
        if !two_kinds(block, line) {
            self.fault("a control, a block comment as a line comment, does not come out", &[block.as_bytes(), line.as_bytes()]);
            self.differed += 1;
        }
    }

    fn say(&self, seed: u64) {
        println!("random scripts, seed {seed}: {}", listed(self.drawn, SOURCES));
        println!("of them accepted: {}", listed(self.accepted, SOURCES));
        for (kind, numbers) in KINDS.into_iter().zip(self.rewritten) {
            println!("{kind} rewritten: {}", listed(numbers, SORTS.map(|sort| sort.name)));
        }
        println!("texts thrown away: {}; comments given letters after {TRIES} tries: {}", self.thrown, self.given_up);
        for (function, numbers) in FUNCTIONS.into_iter().zip(&self.numbers) {
            let names = numbers.keys().map(|number| format!("answered {number}"));
            println!("pairs of calls of {function}: {}", listed(numbers.values().copied(), names));
        }
        println!("controls: {}", listed(self.controls, CONTROLS.map(|(name, _)| name)));
        println!("controls: {} pairs of a block comment and a line comment", self.two_kinds);
        let accepted: u64 = self.accepted.iter().sum();
        println!("in all: {accepted} scripts accepted, {} with comments rewritten, {} differed", self.rewritten_scripts, self.differed);
    }
}

// How many in all, and how many of each name, but for those of which there is none.
fn listed(numbers: impl IntoIterator<Item = u64>, names: impl IntoIterator<Item = impl Display>) -> String {
    let some: Vec<_> = numbers.into_iter().zip(names).filter(|(number, _)| *number > 0).collect();
    let list: Vec<String> = some.iter().map(|(number, name)| format!("{number} {name}")).collect();
    format!("{} ({})", some.iter().map(|(number, _)| number).sum::<u64>(), list.join(", "))
}

fn main() {
    let (mut count, mut seed) = (100_000, 1);
    let mut args = std::env::args().skip(1);
    while let Some(option) = args.next() {
        let value = args.next().and_then(|text| text.parse().ok());
        match (option.as_str(), value) {
            ("--count", Some(number)) => count = number,
            ("--seed", Some(number)) => seed = number,
            _ => {
                eprintln!("wording: no option {option}, or no number after it");
                std::process::exit(2);
            }
        }
    }
    let mut bench = Bench::default();
    (0..count).for_each(|number| bench.script(seed, number));
    TWO_KINDS.iter().for_each(|(block, line)| bench.pair(block, line));
    bench.say(seed);
    if bench.faults > 0 {
        std::process::exit(1);
    }
}
