// The scripts that compare/tokenize compares: alphabets whose texts are all walked, roles that each character plays, and random texts.

// Every text of up to `length` pieces of an alphabet.
pub struct Alphabet {
    pub name: &'static str,
    pub pieces: &'static [&'static str],
    pub length: u32,
}

pub const ALPHABETS: [Alphabet; 18] = [
    Alphabet { name: "quotes and escapes", pieces: &["\"", "\\", "u", "1", "F", "\n", "'", "]"], length: 7 },
    Alphabet { name: "quotes alone", pieces: &["\"", "a", "\\"], length: 12 },
    Alphabet { name: "slashes, stars and line ends", pieces: &["/", "*", "\n", "\r", " ", "\t", "a"], length: 7 },
    Alphabet { name: "comments, line ends and cuts", pieces: &["/*", "*/", "//", "\r\n", "\n", " ", "x"], length: 7 },
    Alphabet { name: "identifiers and signs", pieces: &["_", "a", "+", "/", "\"", "*", "="], length: 7 },
    Alphabet { name: "backticks", pieces: &["`", "\"", "$", "{", "a", "\n", "\\"], length: 7 },
    Alphabet { name: "prefixed strings", pieces: &["s", "\"", "\"\"\"", "${", "$", "\\", "\n", "_", "`"], length: 6 },
    Alphabet { name: "characters and symbols", pieces: &["'", "\\", ";", "+", "a", "n", "/", "_"], length: 7 },
    Alphabet { name: "escapes of characters", pieces: &["'", "\\", "u", "0", "9", "A", "g", "\"", "b"], length: 6 },
    Alphabet { name: "digits", pieces: &["0", "x", "L", "l", "9", "F", "a", "_", "."], length: 6 },
    Alphabet {
        name: "numbers about their limits",
        pieces: &[
            "2147483647",
            "2147483648",
            "9223372036854775807",
            "9223372036854775808",
            "0x7FFFFFFF",
            "0x80000000",
            "0",
            "L",
            "8",
            "FFFFFFFF",
            "-",
        ],
        length: 4,
    },
    Alphabet {
        name: "wide characters",
        pieces: &["\u{2170}", "\u{24B6}", "\u{4E00}", "\u{21D2}", "\u{20AC}", "\u{1D400}", "\u{FFFF}", "\u{5B0}", "a", "_", "'"],
        length: 5,
    },
    Alphabet {
        name: "wide characters in texts",
        pieces: &["\u{2170}", "\u{21D2}", "\u{966}", "\u{E9}", "\u{1F600}", "\"", "`", "'", ";", "/", "*", "\n"],
        length: 5,
    },
    Alphabet {
        name: "keywords and punctuation",
        pieces: &["if", "then", "else", "case", "=", ">", ":", "#", "@", "_", "\"", " ", "//", "1", "$"],
        length: 5,
    },
    Alphabet { name: "keyword signs", pieces: &["=>", "=", ":", "#", "@", "/", "*", "\u{21D2}", " ", "'"], length: 5 },
    Alphabet { name: "single signs", pieces: &["(", ")", "[", "]", "{", "}", ",", ";", ".", "'", "\"", "\u{0}"], length: 5 },
    Alphabet {
        name: "direction marks and their neighbours",
        pieces: &["\u{202A}", "\u{2069}", "\u{2029}", "\u{202F}", "\u{206A}", "\"", "`", "'", "//", "/*", "*/", "\n"],
        length: 5,
    },
    Alphabet {
        name: "operator signs past ASCII",
        pieces: &["\u{2264}", "\u{F7}", "\u{FFFC}", "\u{24B6}", "\u{21D2}", "=", "/", "*", "_", "a", "'", ";"],
        length: 5,
    },
];

impl Alphabet {
    pub fn texts(&self) -> u64 {
        (0..=self.length).map(|l| (self.pieces.len() as u64).pow(l)).sum()
    }

    // The text of a number below texts(): the shorter ones first.
    pub fn text(&self, mut number: u64, out: &mut Vec<u8>) {
        let base = self.pieces.len() as u64;
        let mut length = 0;
        while number >= base.pow(length) {
            number -= base.pow(length);
            length += 1;
        }
        out.clear();
        for _ in 0..length {
            out.extend_from_slice(self.pieces[(number % base) as usize].as_bytes());
            number /= base;
        }
    }
}

// What stands before and after a character in each of its roles.
pub const ROLES: [(&str, &str); 26] = [
    ("", ""),
    ("a", ""),
    ("", "a"),
    ("_", ""),
    ("a_", ""),
    ("a_", "+"),
    ("\"", "\""),
    ("\"", ""),
    ("\"\"\"", "\"\"\""),
    ("s\"", "\""),
    ("s", "\"x\""),
    ("\"\\", "\""),
    ("\"\\u12", "4\""),
    ("//", "\nx"),
    ("/*", "*/"),
    ("\n/**/", "x"),
    ("`", "`"),
    ("`a`", "\""),
    ("'", ""),
    ("'", "'"),
    ("'a", ""),
    ("'\\", "'"),
    ("';", ""),
    ("+", "="),
    ("=", ""),
    ("0x1", "L"),
];

// A small generator of its own, so that a seed gives the same scripts with every toolchain.
pub struct Random(pub u64);

impl Random {
    pub fn next(&mut self) -> u64 {
        self.0 = self.0.wrapping_add(0x9E37_79B9_7F4A_7C15);
        let mut z = self.0;
        z = (z ^ (z >> 30)).wrapping_mul(0xBF58_476D_1CE4_E5B9);
        z = (z ^ (z >> 27)).wrapping_mul(0x94D0_49BB_1331_11EB);
        z ^ (z >> 31)
    }

    pub fn below(&mut self, n: usize) -> usize {
        (self.next() % n as u64) as usize
    }

    fn pick<'a>(&mut self, list: &[&'a str]) -> &'a str {
        list[self.below(list.len())]
    }
}

const PHRASES: [&str; 16] = [
    "val deadline = 720000",
    "sigmaProp(HEIGHT > deadline)",
    "{ (x: Int) => x + 1 }",
    "INPUTS(0).R4[Long].get",
    "OUTPUTS.forall({ (b: Box) => b.value >= 1000000L })",
    "if (HEIGHT > 100) alice && bob else carol",
    "PK(\"9f4QF8AD1nQ3nJahQVkMj8hFSVVzVom77b52JU7EW71Zexg6N8v\")",
    "fromBase16(\"00ff\")",
    "SELF.tokens(0)._1 == OUTPUTS(0).tokens(0)._1",
    "def f(a: Coll[Byte]): Boolean = a.size == 0x20",
    "allOf(Coll(a, b, c))",
    "proveDlog(groupGenerator) || atLeast(2, keys)",
    "x match { case _ => true }",
    "val `odd name` = 'sym",
    "a ++ b.slice(0, 1)",
    "CONTEXT.dataInputs.size - 1",
];
const WORDS: [&str; 30] = [
    "a",
    "x1",
    "_",
    "__",
    "_x",
    "a_b",
    "a__",
    "x_+",
    "a_//",
    "$",
    "a$b",
    "val",
    "def",
    "null",
    "case",
    "else",
    "false",
    "function",
    "if",
    "match",
    "return",
    "then",
    "true",
    "iff",
    "True",
    "\u{E9}t\u{E9}",
    "\u{2170}",
    "a\u{4E00}",
    "x\u{966}",
    "\u{FF21}b",
];
const SIGNS: [&str; 26] = [
    "(", ")", "[", "]", "{", "}", ",", ";", ".", "+", "-", "*", "==", "!=", "<=", ">=", "&&", "||", "=>", "=", ":", "#", "@", "\u{21D2}", "::", "\\",
];
const NUMBERS: [&str; 14] = [
    "0",
    "1",
    "42",
    "007",
    "0x1F",
    "0xabcdef",
    "2147483647",
    "0x7FFFFFFF",
    "1L",
    "9223372036854775807L",
    "0x7fffffffffffffffl",
    "0xL",
    "0x",
    "100000000000l",
];
const STRINGS: [&str; 20] = [
    "\"\"",
    "\"abc\"",
    "\"a\\n\\t\\\"b\"",
    "\"\\u00e9\"",
    "\"\\0\\12\\999\"",
    "\"\\]\"",
    "\"$x ${y}\"",
    "\"\u{4E00}\u{1F600}\"",
    "\"\"\"a\nb\"\"\"",
    "\"\"\"\"\"\"",
    "\"\"\"a\"\"\"\"",
    "\"\"\"\"a\"\"\"",
    "s\"a $b\"",
    "s\"\\\"",
    "s\"\"\"x\ny\"\"\"",
    "`p`\"q\"",
    "x_+\"z\"",
    "\"a\rb\"",
    "\"/* // */\"",
    "raw\"$$ $ \"",
];
const QUOTED: [&str; 16] =
    ["'a'", "'\\n'", "'\\u0041'", "'\\7'", "'''", "';", "'foo", "'if", "'=>", "'+", "'x_+", "'\u{4E00}'", "'\"'", "`odd`", "`a b\nc`", "`\u{20AC}`"];
const GAPS: [&str; 14] =
    [" ", " ", " ", "  ", "\t", "\n", "\n\n", "\r\n", " // note\n", "/* c */", "\n/* c */", "\n/* /* n */ */ \n", "// a\rb\r\n", "\n//\n/**/"];
const DAMAGE: [&str; 24] = [
    "\"",
    "'",
    "`",
    "\\",
    "\"\"\"",
    "/*",
    "*/",
    "//",
    "\r",
    "\n",
    "${",
    "\\u",
    "\u{20AC}",
    "\u{1D400}",
    "\u{4E00}",
    "\u{0}",
    "_",
    "=",
    "99999999999",
    "L",
    "0x",
    "+",
    "s\"",
    "a",
];

// A text of whole tokens and gaps of about so many bytes, most of them accepted.
pub fn contract(random: &mut Random, length: usize) -> Vec<u8> {
    let mut text = String::new();
    while text.len() < length {
        let piece = match random.below(16) {
            0..=3 => random.pick(&PHRASES),
            4..=6 => random.pick(&WORDS),
            7..=10 => random.pick(&SIGNS),
            11 => random.pick(&NUMBERS),
            12..=13 => random.pick(&STRINGS),
            _ => random.pick(&QUOTED),
        };
        text.push_str(piece);
        if random.below(8) != 0 {
            text.push_str(random.pick(&GAPS));
        }
    }
    text.into_bytes()
}

// A copy with one to `most` of the characters put in, anywhere but inside a character.
pub fn put_in(random: &mut Random, script: &[u8], most: usize, characters: &[&str]) -> Vec<u8> {
    let mut copy = script.to_vec();
    for _ in 0..=random.below(most) {
        let mut at = random.below(copy.len() + 1);
        while copy.get(at).is_some_and(|byte| byte & 0xC0 == 0x80) {
            at += 1;
        }
        copy.splice(at..at, characters[random.below(characters.len())].bytes());
    }
    copy
}

// A copy with one to three faults: bytes turned, put in, taken out, said twice, or the end cut off.
pub fn damaged(random: &mut Random, script: &[u8]) -> Vec<u8> {
    let mut copy = script.to_vec();
    for _ in 0..=random.below(3) {
        let at = random.below(copy.len() + 1);
        let end = (at + random.below(6)).min(copy.len());
        match random.below(8) {
            0 if at < copy.len() => copy[at] ^= 1 << random.below(8),
            1 if at < copy.len() => copy[at] = random.next() as u8,
            2 => copy.truncate(at),
            3 => drop(copy.drain(at..end)),
            4 => {
                let again = copy[at..end].to_vec();
                copy.splice(at..at, again);
            }
            _ => drop(copy.splice(at..at, random.pick(&DAMAGE).bytes())),
        }
    }
    copy
}
