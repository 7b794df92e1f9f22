// Makes the list of scripts and places that crates/line_replay replays. The answers are those of a counter of its own, written from the sentences
// of REQUESTS, "Lines and columns": for each place it counts from the script's first byte on, character by character, and uses no index; nothing of
// ours is called. Built and run by compare/lines.
//
//     lines            print what crates/line_replay/stdin is to hold; its format is written in crates/line_replay/src/main.rt
//     lines --count    print how many scripts there are of each sort, and how many scripts and places have which answer
//
// Not in the list are 17, since a list has no room for a script of so many bytes, and 20, since each block that the program lends has 16 bytes. Nor
// are queries over other numbers than those of the script's index, of which REQUESTS says only that they end, with some line and column.
#[allow(dead_code)]
mod scripts;

use scripts::Random;
use std::collections::BTreeSet;
use std::io::Write;

// ---- the counter

// "LF and CR LF end a line everywhere, also inside strings": the places behind the line ends, from the left.
fn line_ends(text: &str) -> Vec<u32> {
    let (mut rest, mut places) = (text, Vec::new());
    while let Some(c) = rest.chars().next() {
        let end = ["\n", "\r\n"].iter().find(|end| rest.starts_with(**end));
        rest = &rest[end.map_or(c.len_utf8(), |end| end.len())..];
        if end.is_some() {
            places.push((text.len() - rest.len()) as u32);
        }
    }
    places
}

// "An index of line starts"; "a script has one line more than it has line ends".
fn line_starts(text: &str) -> Vec<u32> {
    [0].into_iter().chain(line_ends(text)).collect()
}

// "Line and column (both from 1, column in characters) for a place", by "counting from the script's first byte". "Both bytes of CR LF belong to the
// line they end": the CR is a character of it as any other, and only behind the LF the next line begins. None for "a place past the end or inside a
// character".
fn position(text: &str, place: u32) -> Option<(u32, u32)> {
    let (mut at, mut line, mut column) = (0, 1, 1);
    for c in text.chars() {
        if at == place {
            return Some((line, column));
        }
        at += c.len_utf8() as u32;
        (line, column) = match c {
            '\n' => (line + 1, 1),
            _ => (line, column + 1),
        };
    }
    (at == place).then_some((line, column))
}

// The script's text, or 18 with its place, "the length of the longest valid prefix" (RULES, "Refusals of a call").
fn text(script: &[u8]) -> Result<&str, [u32; 4]> {
    std::str::from_utf8(script).map_err(|error| [18, error.valid_up_to() as u32, 0, 0])
}

// Building in lent numbers: refusal, place, number of lines, 0, and the numbers afterwards. "Building can give 17, 18 and 26; a refusal leaves the
// buffer unchanged, and numbers past the index keep their values." 26, "an index buffer shorter than the number of lines", tells that number too.
fn built(script: &[u8], mut numbers: Vec<u32>) -> ([u32; 4], Vec<u32>) {
    let starts = match text(script) {
        Ok(text) => line_starts(text),
        Err(block) => return (block, numbers),
    };
    let lines = starts.len();
    if numbers.len() < lines {
        return ([26, 0, lines as u32, 0], numbers);
    }
    numbers[..lines].copy_from_slice(&starts);
    ([0, 0, lines as u32, 0], numbers)
}

// A query: refusal, place, line, column. "After 17 and 18 come 25, a place past the end or inside a character, and 26, an index buffer shorter than
// the number of lines, both at place 0."
fn told(script: &[u8], lent: usize, place: u32) -> [u32; 4] {
    let text = match text(script) {
        Ok(text) => text,
        Err(block) => return block,
    };
    match position(text, place) {
        None => [25, 0, 0, 0],
        Some(_) if lent < line_starts(text).len() => [26, 0, 0, 0],
        Some((line, column)) => [0, 0, line, column],
    }
}

// Line starts and counting say the same: each start is the first place of its line, and the script's end lies in the last one.
fn assert_counted(script: &[u8]) {
    let Ok(text) = text(script) else { return };
    let starts = line_starts(text);
    for (k, &start) in starts.iter().enumerate() {
        assert_eq!(position(text, start), Some((k as u32 + 1, 1)));
    }
    assert_eq!(position(text, text.len() as u32).unwrap().0, starts.len() as u32);
}

// ---- the list

struct Case {
    script: Vec<u8>,
    // How many numbers are lent, and what each of them holds before.
    lent: usize,
    held: u32,
    places: Vec<u32>,
}

impl Case {
    fn built(&self) -> ([u32; 4], Vec<u32>) {
        built(&self.script, vec![self.held; self.lent])
    }

    fn told(&self, place: u32) -> [u32; 4] {
        told(&self.script, self.lent, place)
    }
}

#[derive(Default)]
struct List {
    sorts: Vec<(&'static str, Vec<Case>)>,
    known: BTreeSet<(Vec<u8>, usize)>,
}

impl List {
    fn sort(&mut self, name: &'static str) {
        self.sorts.push((name, Vec::new()));
    }

    fn has(&self, script: &[u8]) -> bool {
        self.known.range((script.to_vec(), 0)..=(script.to_vec(), MOST_LENT)).next().is_some()
    }

    // A script with so many numbers lent, unless both are listed already.
    fn put(&mut self, script: &[u8], lent: usize, places: Vec<u32>) {
        assert!(lent <= MOST_LENT);
        assert_counted(script);
        let held = HELD[self.known.len() % HELD.len()];
        if self.known.insert((script.to_vec(), lent)) {
            self.sorts.last_mut().unwrap().1.push(Case { script: script.to_vec(), lent, held, places });
        }
    }

    // A script with every place, and with more numbers lent than it has lines, and fewer.
    fn put_whole(&mut self, script: &[u8]) {
        let lines = lines(script);
        self.put(script, lines, every(script).into_iter().chain(FAR).collect());
        for lent in [lines + 1, lines + 3, lines - 1, 0] {
            self.put(script, lent, some(script));
        }
    }
}

// The most numbers that crates/line_replay lends.
const MOST_LENT: usize = 512;

// What lent numbers hold before: places past every line, and the first ones, at which a search that went on behind the index would stop.
const HELD: [u32; 4] = [0xA5A5_A5A5, 0, 1, 0xFFFF_FFFF];

const FAR: [u32; 2] = [0x8000_0000, 0xFFFF_FFFF];

// How many numbers the script's index takes; 1, where it has none.
fn lines(script: &[u8]) -> usize {
    text(script).map_or(1, |text| line_starts(text).len())
}

// Every place of a script, and two past its end.
fn every(script: &[u8]) -> Vec<u32> {
    (0..=script.len() as u32 + 2).collect()
}

// Its ends, what lies beside them, and its middle.
fn some(script: &[u8]) -> Vec<u32> {
    let end = script.len() as u32;
    BTreeSet::from([0, 1, end / 2, end.saturating_sub(1), end, end + 1]).into_iter().collect()
}

fn joined(parts: &[&[u8]]) -> Vec<u8> {
    parts.concat()
}

// ---- its scripts

// For each sentence a few.
const SENTENCES: [&str; 46] = [
    // one line more than line ends
    "",
    "\n",
    "\n\n",
    "\n\n\n",
    "a",
    "a\n",
    "a\nb",
    "a\nb\n",
    "\na",
    "\n\na\n\n",
    // CR LF is one line end, and a CR alone is none
    "\r\n",
    "\r\n\r\n",
    "a\r\nb\nc\r\n",
    "\r",
    "a\rb",
    "\r\r",
    "\r\r\n",
    "\n\r",
    "\n\r\n",
    "\r\n\r",
    "\r\n\n\r",
    "a\r",
    "\ra\n\rb\r\r\nc",
    // everywhere, also inside strings, comments and backticks, well made or not
    "val s = \"\"\"one\ntwo\r\nthree\"\"\" + x",
    "\"one\ntwo\"",
    "\"one\r\ntwo\\\n\"",
    "s\"one\ntwo\"",
    "/* one\ntwo /* \r\n */ three\n*/ x",
    "/*\n",
    "// one\n// two\r\n// three\r// not four",
    "`one\ntwo`",
    "'\n'",
    "a // b\r\r\nc",
    // columns in characters, of one to four bytes
    "ж",
    "€",
    "😀",
    "aж€😀b",
    "ж\nжж\n€€\r\n😀😀\n",
    "\u{7F}\u{80}\u{7FF}\u{800}\u{FFFF}\u{10000}\u{10FFFF}",
    "e\u{301}\n\u{200D}\u{FEFF}",
    // a tab is one character, and the line ends of other texts are none
    "\ta\t\n\t\tb",
    "\u{B}\u{C}\u{85}\u{2028}\u{2029}x",
    // direction marks, which tokenizing refuses, and their neighbours
    "\"\u{202E}\n\u{2066}\"",
    "// \u{202A}\u{202B}\r\n/* \u{202C}\n\u{202D} */ `\u{2067}\n`\u{2068} '\u{2069}'",
    "\u{2029}\u{202F}\n\u{2065}\u{206A}\r\n\u{200E}\u{200F}\u{61C}",
    "\0\n\0",
];

fn put_sentences(list: &mut List) {
    list.sort("scripts for each sentence, every place");
    SENTENCES.iter().for_each(|script| list.put_whole(script.as_bytes()));
}

// What makes bytes no UTF-8: bytes that begin nothing, forms too long, surrogates, codes past the last, sequences cut off, and
// a byte too many, behind a direction mark too.
const NO_UTF8: [&[u8]; 27] = [
    b"\x80",
    b"\xBF",
    b"\xC0\x80",
    b"\xC0\x8A",
    b"\xC1\xBF",
    b"\xE0\x80\x8A",
    b"\xE0\x9F\xBF",
    b"\xED\xA0\x80",
    b"\xED\xBF\xBF",
    b"\xF0\x80\x80\x8A",
    b"\xF0\x8F\xBF\xBF",
    b"\xF4\x90\x80\x80",
    b"\xF5\x80\x80\x80",
    b"\xFE",
    b"\xFF",
    b"\xC2",
    b"\xDF",
    b"\xE0",
    b"\xE0\xA0",
    b"\xE2\x82",
    b"\xEF\xBF",
    b"\xF0",
    b"\xF0\x9F",
    b"\xF0\x9F\x98",
    b"\xF4\x8F\xBF",
    b"\xE2\x82\xAC\xAC",
    b"\xE2\x80\xAE\xAE",
];

fn put_no_utf8(list: &mut List) {
    list.sort("scripts that are not UTF-8");
    for bytes in NO_UTF8 {
        let contexts: [(&[u8], &[u8]); 5] = [(b"", b""), (b"a\n", b""), (b"\n", b"\nb"), ("ж\r\n".as_bytes(), b"b"), (b"aaaaaaa", b"bb\n")];
        for (before, behind) in contexts {
            let script = joined(&[before, bytes, behind]);
            let places = vec![0, before.len() as u32, script.len() as u32, script.len() as u32 + 1];
            list.put(&script, 2, places);
        }
        // 18 goes before 26
        list.put(bytes, 0, vec![0]);
    }
}

// Every text of so many symbols.
fn each_text(symbols: &[&[u8]], count: u32, mut put: impl FnMut(usize, Vec<u8>)) {
    for number in 0..symbols.len().pow(count) {
        let mut script = Vec::new();
        let mut left = number;
        for _ in 0..count {
            script.extend_from_slice(symbols[left % symbols.len()]);
            left /= symbols.len();
        }
        put(number, script);
    }
}

// Six characters, and a byte that begins none.
const SYMBOLS: [&[u8]; 7] = [b"a", b"\n", b"\r", "ж".as_bytes(), "€".as_bytes(), "😀".as_bytes(), b"\x80"];

fn put_short(list: &mut List) {
    list.sort("every script of up to three of seven symbols, every place");
    for count in 0..=3 {
        each_text(&SYMBOLS, count, |number, script| {
            let places = if text(&script).is_ok() { every(&script) } else { vec![0, script.len() as u32 + 1] };
            list.put(&script, lines(&script) + number % 3, places);
        });
    }
    list.sort("every script of up to two of them, fewer numbers lent");
    for count in 0..=2 {
        each_text(&SYMBOLS, count, |_, script| list.put(&script, lines(&script) - 1, some(&script)));
    }
    list.sort("every script of four of the first four, every place");
    each_text(&SYMBOLS[..4], 4, |number, script| list.put(&script, lines(&script) + number % 3, every(&script)));
    list.sort("every other script of four characters, one place");
    each_text(&SYMBOLS[..6], 4, |number, script| {
        let place = number % (script.len() + 1);
        if !list.has(&script) {
            list.put(&script, lines(&script), vec![place as u32]);
        }
    });
}

// Lengths about those by which the code counts and searches: 224 bytes, and sixteen and sixty-four.
const LENGTHS: [usize; 23] = [0, 1, 7, 8, 9, 15, 16, 17, 47, 48, 49, 63, 64, 65, 127, 128, 129, 223, 224, 225, 447, 448, 449];

fn put_lengths(list: &mut List) {
    list.sort("a line of each length");
    for length in LENGTHS {
        let plain = vec![b'a'; length];
        // as many bytes of two, three and four, the first characters narrower
        let mut wide = vec![b'a'; length % 9];
        (0..length / 9).for_each(|_| wide.extend_from_slice("ж😀€".as_bytes()));
        for line in [plain, wide] {
            for (before, behind) in [("", ""), ("", "\nb"), ("x\n", "\r\nb\n"), ("\n\nж", "\r")] {
                let script = joined(&[before.as_bytes(), &line, behind.as_bytes()]);
                let start = before.len() as u32;
                let ends = start + length as u32;
                let mut places: BTreeSet<u32> = some(&script).into_iter().collect();
                places.extend([start, start + 1, start + length as u32 / 3, ends, ends + 1]);
                list.put(&script, lines(&script), places.into_iter().collect());
            }
        }
    }
}

fn put_offsets(list: &mut List) {
    list.sort("a line end at every offset, every place");
    for offset in 0..=16 {
        for end in ["\n", "\r\n"] {
            let script = joined(&[&vec![b'a'; offset], end.as_bytes(), &vec![b'b'; 16 - offset]]);
            list.put(&script, lines(&script), every(&script));
        }
    }
    list.sort("a line end at every offset of eighty bytes, places beside it, numbers for every byte lent or for every line");
    for offset in 0..=80 {
        for end in ["\n", "\r\n"] {
            let script = joined(&[&vec![b'a'; offset], end.as_bytes(), &vec![b'b'; 80 - offset]]);
            let beside = (offset as u32).saturating_sub(1)..=(offset + end.len()) as u32;
            let lent = if offset % 2 == 0 { script.len() + 1 } else { lines(&script) };
            list.put(&script, lent, beside.collect());
        }
    }
    list.sort("two LFs at every two offsets");
    for first in 0..17 {
        for second in 0..first {
            let mut script = vec![b'a'; 17];
            (script[first], script[second]) = (b'\n', b'\n');
            let beside = [first, second].map(|at| at as u32);
            let places: BTreeSet<u32> = beside.into_iter().chain(beside.map(|at| at + 1)).chain([17]).collect();
            list.put(&script, 3, places.into_iter().collect());
        }
    }
}

fn put_many(list: &mut List) {
    list.sort("many lines, every place up to 33 of them");
    for count in 0..=32 {
        let script = vec![b'\n'; count];
        list.put(&script, count + 1, (0..=count as u32).collect());
    }
    for count in [47, 48, 49, 63, 64, 65, 80, 127, 128, 129, 223, 224, 225, 254, 255, 256, 257, 447, 448, 449, 511] {
        let script = vec![b'\n'; count];
        let places = [0, 1, 2, count / 3, count / 2, count / 2 + 1, count - 2, count - 1, count, count + 1].map(|at| at as u32);
        list.put(&script, count + 1, places.to_vec());
    }
    list.put(&[b'\n'; 512], 512, vec![0, 512, 513]);
    list.put(b"a\nb", 512, vec![0, 3]);
}

// Contracts at random and damaged ones, each with some places.
fn put_random(list: &mut List) {
    list.sort("at random, of one seed");
    let mut random = Random(16);
    for k in 0..100 {
        let length = [20, 40, 80, 250][k % 4];
        let mut script = scripts::contract(&mut random, length);
        if k % 3 == 0 {
            script = scripts::damaged(&mut random, &script);
        }
        let lent = (lines(&script) + random.below(5)).saturating_sub(random.below(2));
        let mut places: Vec<u32> = (0..6).map(|_| random.below(script.len() + 2) as u32).collect();
        places.extend([script.len() as u32, random.next() as u32]);
        list.put(&script, lent, places);
    }
}

fn listed() -> List {
    let mut list = List::default();
    for put in [put_sentences, put_no_utf8, put_short, put_lengths, put_offsets, put_many, put_random] {
        put(&mut list);
    }
    list
}

fn block(words: &[u32]) -> Vec<u8> {
    words.iter().flat_map(|word| word.to_le_bytes()).collect()
}

fn print_list(list: &List) {
    let (mut out, mut cases, mut places) = (Vec::new(), 0, 0);
    for case in list.sorts.iter().flat_map(|(_, cases)| cases) {
        let (answer, numbers) = case.built();
        out.extend(block(&[case.script.len() as u32, case.lent as u32, case.held, case.places.len() as u32]));
        out.extend(block(&answer));
        out.extend_from_slice(&case.script);
        out.extend(block(&numbers));
        for &place in &case.places {
            out.extend(block(&[place]));
            out.extend(block(&case.told(place)));
        }
        cases += 1;
        places += case.places.len();
    }
    std::io::stdout().write_all(&out).unwrap();
    eprintln!("lines: {cases} scripts listed, {places} places, {} bytes", out.len());
}

// How many answers are which number.
#[derive(Default)]
struct Tally([usize; 4]);

const NUMBERS: [u32; 4] = [0, 18, 25, 26];

impl Tally {
    fn count(&mut self, block: [u32; 4]) {
        self.0[NUMBERS.iter().position(|&number| number == block[0]).unwrap()] += 1;
    }

    fn add(&mut self, other: &Tally) {
        (0..4).for_each(|i| self.0[i] += other.0[i]);
    }

    fn all(&self) -> usize {
        self.0.iter().sum()
    }
}

impl std::fmt::Display for Tally {
    fn fmt(&self, f: &mut std::fmt::Formatter) -> std::fmt::Result {
        let [good, no_utf8, no_place, short] = self.0;
        write!(f, "{:5}: {good:5} are 0, {no_utf8:4} are 18, {no_place:4} are 25, {short:4} are 26", self.all())
    }
}

fn print_counts(list: &List) {
    let (mut scripts, mut places) = (Tally::default(), Tally::default());
    for (name, cases) in &list.sorts {
        let (mut sort, mut asked) = (Tally::default(), Tally::default());
        for case in cases {
            sort.count(case.built().0);
            case.places.iter().for_each(|&place| asked.count(case.told(place)));
        }
        println!("{sort}; {name}");
        println!("{asked}; of the places asked for");
        scripts.add(&sort);
        places.add(&asked);
    }
    println!("{scripts}; in all");
    println!("{places}; of the places asked for");
}

fn main() {
    let list = listed();
    match std::env::args().nth(1).as_deref() {
        None => print_list(&list),
        Some("--count") => print_counts(&list),
        Some(option) => {
            eprintln!("lines: no option {option}");
            std::process::exit(2);
        }
    }
}
