// The cases that crates/listing_cases lists, and their listings by RULES, "Listing". A listing is written from the tokens of
// the published tokenize, or from its error; no record bytes lie between.
use super::{content, kind, marks, refusal, signs, EXAMPLES, WIDENED};
use published::error::ParseError;
use published::token::{tokenize, Token, TokenKind};
use std::io::Write;

const MOST_BYTES: usize = 3000;

// RULES, "Traps".
const TRAPS: &[&str] = &[
    "\u{2170}",
    "a\u{2170}",
    "\u{2170}a",
    "\u{24B6}",
    "\"\\8\"",
    "\"\\128\"",
    "\"\\0009\"",
    "'\\8'",
    "'\\189'",
    "\"\"\"\"\"\"\"",
    "\"\"\"\"\"a\"\"\"\"\"",
    "\"\"\"a\"\"\"\"\"",
    "\"\"",
    "a_/*b",
    "a_//b\nc",
    "a_=//",
    "\n/**/ /**/\nx",
    "\n/**/y\nx",
    "\n/**/\t/**/x",
    "\n/**/",
    "/**/x",
    "\n/* \n */x",
    "\n/**/ // c\nx",
];

// Each token kind with its values, and more kinds of pieces.
const KINDS: &[&str] = &[
    "x ++ `y` 0 'z' 'sym '; 'if '+",
    "()[]{},;.",
    "case else false function if match return then true",
    ": => = # @",
    ":// c",
    "cases iffy _if if_",
    "2147483647 2147483648L 0x7fffffff 0X1",
    "9223372036854775807l 0x7FFFFFFFFFFFFFFFL 007 0L",
    "9223372036854775808L",
    "0x8000000000000000L",
    "2147483648",
    "\"plain\" s\"pre $ fix\" `b`\"\"\"tri\nple\"\"\" \"\\u0041\\n\\7\"",
    "a\n\r\n \n// c\n\n/* d */\nb",
    "/* a /* b */ c */ d // e",
    "val x = { (y: Int) => y + 1L }\nif (x) \"a\" else \"\u{4E00}\"",
    "\u{21D2} a\u{21D2} a_\u{21D2}",
    "'\u{1F600}'",
    "a_b_1_++ $x $ _",
    "\"\\\\\"",
    "s\"$x\"",
    "\t \t",
];

// Not UTF-8.
const BYTES: &[&[u8]] = &[&[0x61, 0xC0, 0x80], &[0x22, 0xE4, 0xB8], &[0x0D, 0xED, 0xA0, 0x80], &[0xFF]];

// With direction marks, and with their neighbours.
const MARKED: &[&str] =
    &["\u{202A}", "x // \u{202E}y\n\u{1}", "\u{1} \"\u{2066}\u{2069}\"", "`\u{2029}\u{202F}` \"\u{2065}\u{206A}\" '\u{200E}' /* \u{200F}\u{61C} */"];

// RULES, "Operator sign", and where it is used: what the table lets in, and what stays out.
const SIGNS: &[&str] = &[
    "a\u{2264}b \u{222A}",
    "x_\u{222A} x_\u{20AC}",
    "=\u{2264} \u{2264}// c",
    "'\u{2264}' '\u{2264} '\u{2264}=",
    "';\u{2264}",
    "'\u{FFFC} \u{FFFD}",
    "'\u{FFFC}'",
    "\u{2044}\u{2044}a \u{2044}* b",
    "x\u{24B6}+1 x_\u{24B6}",
    "\u{2427}\u{2428}\u{2429}\u{31E4}\u{31E5}",
    "\u{A9}\u{F7}\u{21D2}",
    "\u{20AC}",
    "\u{1F600}",
];

fn cases() -> Vec<Vec<u8>> {
    let texts = EXAMPLES.iter().chain(TRAPS).chain(KINDS);
    let mut list: Vec<Vec<u8>> = texts.map(|text| text.as_bytes().to_vec()).collect();
    list.extend(BYTES.iter().map(|bytes| bytes.to_vec()));
    list.push(b"7 ".repeat(60));
    list.push(vec![b' '; MOST_BYTES]);
    list.push([vec![b'a'; MOST_BYTES - 1], vec![b'"']].concat());
    list.push(vec![b' '; MOST_BYTES + 1]);
    list.push(vec![0xFF; MOST_BYTES + 1]);
    list.extend(MARKED.iter().map(|text| text.as_bytes().to_vec()));
    list.push(["\u{202E}".as_bytes(), b"\xFF"].concat());
    list.extend(SIGNS.iter().map(|text| text.as_bytes().to_vec()));
    list
}

// Those that this program judges, and how many another one lists before.
fn judged() -> (usize, Vec<Vec<u8>>) {
    let (mine, others): (Vec<_>, Vec<_>) = cases().into_iter().partition(|script| signs::is_judged(script));
    (if WIDENED { others.len() } else { 0 }, mine)
}

fn values(text: &str, token: &Token) -> Vec<u64> {
    match &token.kind {
        TokenKind::IntLit(value) => vec![u64::try_from(*value).unwrap()],
        TokenKind::LongLit(value) => vec![u64::try_from(*value).unwrap()],
        TokenKind::Str(_) => {
            let (from, to) = content(token.text(text).as_bytes(), token.start as usize);
            vec![from as u64, to as u64]
        }
        TokenKind::Newline { after_comment } => vec![*after_comment as u64],
        _ => vec![],
    }
}

fn line(text: &str, token: &Token) -> String {
    let number = kind(text, token, &mut Vec::new());
    let values: String = values(text, token).iter().map(|value| format!(" {value}")).collect();
    format!("{number} {} {} {}{values}\n", token.start, token.end, token.bc_before as u8)
}

fn listing(script: &[u8]) -> String {
    if script.len() > MOST_BYTES {
        return "long\n".into();
    }
    let text = match std::str::from_utf8(script) {
        Ok(text) => text,
        Err(e) => return format!("refused 18 at {}\n", e.valid_up_to()),
    };
    if let Some(place) = marks::first_mark(text) {
        return format!("refused 29 at {place}\n");
    }
    match tokenize(text) {
        Ok(tokens) => tokens.iter().map(|token| line(text, token)).collect(),
        Err(ParseError::Lexical { pos, msg }) => format!("refused {} at {pos}\n", refusal(&msg)),
        Err(other) => panic!("tokenize refused otherwise than by a lexical error: {other:?}"),
    }
}

// The format is written in crates/listing_cases/src/main.rt.
pub fn print_cases() {
    let mut out = Vec::new();
    for script in judged().1 {
        out.extend(format!("{:04}\n", script.len()).into_bytes());
        out.extend(script);
    }
    std::io::stdout().write_all(&out).unwrap();
}

pub fn print_listings() {
    let (before, scripts) = judged();
    for (i, script) in scripts.iter().enumerate() {
        print!("-- {}\n{}", before + i + 1, listing(script));
    }
}
