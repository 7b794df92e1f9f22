// The texts of bench/speed and bench/count: for each kind of piece a short and a long form, mixtures, and contract text of each size; each also
// with a refusal at its end.
#[allow(dead_code)]
#[path = "../compare/scripts.rs"]
mod scripts;

use scripts::Random;

pub const CONTRACT: &str = include_str!("contract.txt");
pub const MIB: usize = 1 << 20;

// The length of a kind's and a mixture's text: short enough to be counted, long enough for what a call costs by itself to vanish.
const LENGTH: usize = 40_000;

// No piece starts with it, and it is a byte: refusal 3.
const UNEXPECTED: &str = "\u{1}";

// A head, a middle so many times, a tail. A kind's text is one form again and again.
pub struct Form(&'static str, &'static str, usize, &'static str);

const fn one(text: &'static str) -> Form {
    Form(text, "", 0, "")
}

impl Form {
    fn text(&self) -> String {
        format!("{}{}{}", self.0, self.1.repeat(self.2), self.3)
    }
}

pub struct Kind {
    group: &'static str,
    name: &'static str,
    short: Form,
    long: Option<Form>,
}

const fn kind(group: &'static str, name: &'static str, short: &'static str, long: Form) -> Kind {
    Kind { group, name, short: one(short), long: Some(long) }
}

const fn sign(name: &'static str) -> Kind {
    Kind { group: "signs", name, short: one(name), long: None }
}

const fn alphabet(name: &'static str, form: Form) -> Kind {
    Kind { group: "alphabets", name, short: form, long: None }
}

const LETTERS: &str = "abcdefghijklmnopqrstuvwxyzABCDEFGHIJKLMNOPQRSTUVWXYZ";
const WORDS: &str = "a few words ";

#[rustfmt::skip]
pub const KINDS: [Kind; 56] = [
    kind("gaps", "blanks", ". ", Form("", " ", 199, ".")),
    kind("gaps", "tabs", ".\t", Form("", "\t", 199, ".")),
    kind("gaps", "indentation", ".\n  ", Form(".\n", " ", 40, "")),
    kind("gaps", "LF lines", "x\n", Form("", "name = ", 11, "x\n")),
    kind("gaps", "CR LF lines", "x\r\n", Form("", "name = ", 11, "x\r\n")),
    kind("gaps", "blank lines, LF", "\n", Form("", " ", 39, "\n")),
    kind("gaps", "blank lines, CR LF", "\r\n", Form("", " ", 38, "\r\n")),
    kind("comments", "line comments", "//a\n", Form("// ", WORDS, 8, "\n")),
    kind("comments", "line comments, Chinese", "//注\n", Form("// ", "金额必须大于零", 5, "\n")),
    kind("comments", "block comments", "/*a*/", Form("/* ", WORDS, 16, "*/ ")),
    kind("comments", "block comments, Chinese", "/*注*/", Form("/* ", "金额必须大于零", 10, "*/ ")),
    kind("comments", "nested comments", "/*/**/*/", one("/* a /* b /* c /* d /* e */ f */ g */ h */ i */ ")),
    kind("comments", "comments of stars", "/***/", Form("/", "*", 198, "/")),
    sign("("),
    sign(")"),
    sign("["),
    sign("]"),
    sign("{"),
    sign("}"),
    sign(","),
    sign(";"),
    sign("."),
    Kind { group: "signs", name: "signs mixed", short: one("(){}[],;."), long: Some(one("( ) { } [ ] , ; . ")) },
    kind("operators", "operators", "+ ", Form("", "+-*<>=!&|", 5, " ")),
    kind("operators", "operators with /", "/ ", Form("", "/+-/<", 9, " ")),
    kind("operators", "operators of ⇒", "⇒ ", Form("", "⇒", 20, " ")),
    kind("operators", "keyword operators", "= ", one(": => = # @ ")),
    kind("names", "names", "a ", Form(LETTERS, "", 0, " ")),
    kind("names", "names of 7 letters", "example ", Form("", "example", 7, " ")),
    kind("names", "names with _", "a_b ", one("a_name_of_some_length_with_eight_parts ")),
    kind("names", "names ending in _", "a_ ", Form("a", "_", 50, " ")),
    kind("names", "names ending in signs", "a_+ ", Form("name_", "+-*<>=!&|", 5, " ")),
    kind("names", "keywords", "if ", one("case else false function if match return then true ")),
    kind("names", "Cyrillic names", "я ", Form("", "значение", 6, " ")),
    kind("names", "Greek names", "λ ", Form("", "αριθμός", 7, " ")),
    kind("names", "accented names", "é ", Form("", "éàüñôç", 8, " ")),
    kind("names", "Chinese names", "a值 ", Form("a", "金额", 25, " ")),
    kind("numbers", "numbers", "1 ", one("2147483647 ")),
    kind("numbers", "long literals", "1L ", one("9223372036854775807L ")),
    kind("numbers", "hex numbers", "0x1 ", one("0x7FFFFFFF ")),
    kind("numbers", "hex long literals", "0x1L ", one("0x7FFFFFFFFFFFFFFFL ")),
    kind("strings", "strings", "\"a\" ", Form("\"", WORDS, 16, "\" ")),
    kind("strings", "strings, Chinese", "\"值\" ", Form("\"", "金额必须大于零", 10, "\" ")),
    kind("strings", "simple escapes", "\"\\n\" ", Form("\"", "\\n", 50, "\" ")),
    kind("strings", "escapes of digits", "\"\\7\" ", Form("\"", "\\123", 30, "\" ")),
    kind("strings", "escapes \\u", "\"\\u00e9\" ", Form("\"", "\\u00e9", 20, "\" ")),
    kind("strings", "prefixed by a name", "s\"a\" ", Form("s\"", WORDS, 16, "\" ")),
    kind("strings", "prefixed by backticks", "`s`\"a\" ", Form("`s`\"", WORDS, 16, "\" ")),
    kind("strings", "triples", "\"\"\"a\"\"\" ", Form("\"\"\"", WORDS, 16, "\"\"\" ")),
    kind("strings", "prefixed triples", "s\"\"\"a\"\"\" ", Form("s\"\"\"", WORDS, 16, "\"\"\" ")),
    kind("quoted", "backticks", "`a` ", Form("`", WORDS, 16, "` ")),
    Kind { group: "quoted", name: "characters", short: one("'a' "), long: None },
    kind("quoted", "escaped characters", "'\\n' ", one("'\\u00e9' ")),
    kind("quoted", "wide characters", "'é' ", one("'值' ")),
    kind("quoted", "symbols of names", "'a ", Form("'", LETTERS, 1, " ")),
    kind("quoted", "symbols of signs", "'+ ", Form("'", "+-*<>=!&|", 5, " ")),
];

// More names of letters past ASCII. Hebrew, Devanagari and Hangul letters have no case, so they only go on in a name. Hebrew stands in escapes: it is
// read from right to left, and an editor would turn the line around. These rows stand beside the others of their groups; the mixture by chance goes
// without them, so that its text stays what it was.
#[rustfmt::skip]
const NAMES: [Kind; 7] = [
    kind("names", "Hebrew names", "a\u{5E9} ", Form("a", "\u{5E1}\u{5DB}\u{5D5}\u{5DD}", 12, " ")),
    kind("names", "Devanagari names", "aक ", Form("a", "कखगघ", 12, " ")),
    kind("names", "Hangul names", "a값 ", Form("a", "합계금액", 12, " ")),
    kind("names", "mixed names", "aя ", Form("", "totalСумма_值_μέσος", 4, " ")),
    kind("names", "Cyrillic names in code", "сумма = выход.значение\n", one("  val сумма = выход.значение * доля - сбор(выход)\n")),
    kind("quoted", "symbols, Cyrillic", "'я ", Form("'", "переменная", 5, " ")),
    kind("quoted", "symbols of ⇒", "'⇒ ", Form("'", "⇒", 20, " ")),
];

// Comments and strings by the first bytes of their characters, C3, E0, E1 and E2 hex, and all of them mixed: what the UTF-8 check and the search for
// direction marks go through. Chinese ones stand above; the mixture by chance goes without these.
#[rustfmt::skip]
const ALPHABETS: [Kind; 10] = [
    alphabet("comments, accents", Form("// ", "été à Genève, où ça va très bien ", 3, "\n")),
    alphabet("comments, Devanagari", Form("// ", "राशि शून्य से अधिक होनी चाहिए ", 2, "\n")),
    alphabet("comments, Khmer", Form("// ", "ចំនួនទឹកប្រាក់ត្រូវតែធំជាងសូន្យ ", 2, "\n")),
    alphabet("comments, U+2xxx", Form("// ", "⇒ – … ’ ≤ ∑ ", 5, "\n")),
    alphabet("comments, mixed", Form("// ", "à payer – 金额 ≤ 10 € … राशि ⇒ ចំនួន ", 2, "\n")),
    alphabet("strings, accents", Form("\"", "été à Genève, où ça va très bien ", 6, "\" ")),
    alphabet("strings, Devanagari", Form("\"", "राशि शून्य से अधिक होनी चाहिए ", 4, "\" ")),
    alphabet("strings, Khmer", Form("\"", "ចំនួនទឹកប្រាក់ត្រូវតែធំជាងសូន្យ ", 4, "\" ")),
    alphabet("strings, U+2xxx", Form("\"", "⇒ – … ’ ≤ ∑ ", 10, "\" ")),
    alphabet("strings, mixed", Form("\"", "à payer – 金额 ≤ 10 € … राशि ⇒ ចំនួន ", 4, "\" ")),
];

// With operator signs past ASCII other than `⇒`. The published tokenize does not know them, so that a copy with the class widened is counted in its
// place (compare/published).
#[rustfmt::skip]
const SIGNS: [Kind; 5] = [
    kind("operators", "operators of ≤ and ∪", "≤ ", Form("", "≤∪", 10, " ")),
    kind("operators", "operators of ¬ and ÷", "÷ ", Form("", "¬÷", 15, " ")),
    kind("operators", "signs past ASCII in code", "a≤b ", one("  val total = значение ≤ limit ∪ (a × b ÷ 2) ⇒ x\n")),
    kind("names", "names ending in ≤ and ∪", "a_≤ ", Form("name_", "≤∪", 10, " ")),
    kind("quoted", "symbols of ≤ and ∪", "'≤ ", Form("'", "≤∪", 10, " ")),
];

const SIZES: [(&str, usize); 10] = [
    ("1 byte", 1),
    ("10 bytes", 10),
    ("100 bytes", 100),
    ("1 kB", 1000),
    ("2 kB", 2000),
    ("4 kB", 4000),
    ("8 kB", 8000),
    ("64 kB", 64_000),
    ("1 MiB", MIB),
    ("16 MiB", 16 * MIB),
];

enum What {
    Form(&'static Form),
    Contract(&'static str),
    Random,
    Size(usize),
}

pub struct Row {
    pub group: &'static str,
    pub name: String,
    // Is it of SIGNS?
    pub signs: bool,
    what: What,
}

impl Row {
    pub fn text(&self) -> String {
        match self.what {
            What::Form(form) => upto(LENGTH, &form.text()),
            What::Contract(line_end) => upto(LENGTH, &CONTRACT.replace('\n', line_end)),
            What::Random => mixture(LENGTH),
            What::Size(n) => sized(n),
        }
    }

    // The same text, refused at its end. One of a given size keeps its size; it may end in a line comment, which the LF closes.
    pub fn refused(&self) -> String {
        match self.what {
            What::Size(1) => UNEXPECTED.to_string(),
            What::Size(n) => sized(n - 2) + "\n" + UNEXPECTED,
            _ => self.text() + UNEXPECTED,
        }
    }
}

// A text repeated, up to n bytes.
pub fn upto(n: usize, unit: &str) -> String {
    unit.repeat(n / unit.len())
}

// The first n bytes of contract after contract. They begin behind the first comment, so that short texts have tokens.
fn sized(n: usize) -> String {
    let first = CONTRACT.find("val ").unwrap();
    let mut text = CONTRACT[first..].to_string();
    while text.len() < n {
        text.push_str(CONTRACT);
    }
    text.truncate(n);
    text.truncate(n - closing(&text).len());
    text.push_str(closing(&text));
    text
}

// What closes the block comment or the string that a text leaves open.
fn closing(text: &str) -> &'static str {
    let line = text.rsplit('\n').next().unwrap_or_default();
    let quotes = line.replace("\\\"", "").matches('"').count();
    match text.rfind("/*") {
        Some(open) if !text[open..].contains("*/") => "*/",
        _ if quotes % 2 == 1 => "\"",
        _ => "",
    }
}

// Forms of all kinds in an order by chance, always the same.
fn mixture(n: usize) -> String {
    let mut random = Random(1);
    let mut text = String::new();
    while text.len() < n {
        let kind = &KINDS[random.below(KINDS.len())];
        let long = kind.long.as_ref().filter(|_| random.below(2) == 1);
        text.push_str(&long.unwrap_or(&kind.short).text());
    }
    text
}

fn forms(kind: &'static Kind) -> Vec<Row> {
    let signs = SIGNS.iter().any(|other| other.name == kind.name);
    let row = |form: &str, what| Row { group: kind.group, name: format!("{}{form}", kind.name), signs, what };
    match &kind.long {
        Some(long) => vec![row(", short", What::Form(&kind.short)), row(", long", What::Form(long))],
        None => vec![row("", What::Form(&kind.short))],
    }
}

pub fn rows() -> Vec<Row> {
    static TABLE: [Kind; KINDS.len()] = KINDS;
    static MORE: [Kind; NAMES.len()] = NAMES;
    static WIDE: [Kind; ALPHABETS.len()] = ALPHABETS;
    static NEW: [Kind; SIGNS.len()] = SIGNS;
    let all = || TABLE.iter().chain(&MORE).chain(&WIDE).chain(&NEW);
    let mut kinds: Vec<&Kind> = all().collect();
    // Those of one group together, in whichever list they stand.
    kinds.sort_by_key(|kind| all().position(|other| other.group == kind.group));
    let mut rows: Vec<Row> = kinds.into_iter().flat_map(forms).collect();
    let mut add = |group, name: &str, what| rows.push(Row { group, name: name.to_string(), signs: false, what });
    add("mixtures", "contract", What::Contract("\n"));
    add("mixtures", "contract, CR LF", What::Contract("\r\n"));
    add("mixtures", "all kinds by chance", What::Random);
    for (name, n) in SIZES {
        add("sizes", name, What::Size(n));
    }
    rows
}

// The rows whose group or name has one of the words in it; all where there is no word.
pub fn chosen(words: &[String]) -> Vec<Row> {
    let named = |row: &Row| words.iter().any(|word| row.group == word || row.name.contains(&word[..]));
    rows().into_iter().filter(|row| words.is_empty() || named(row)).collect()
}
