// Makes the list of good and damaged rolls that crates/roll_replay replays. The answers are those of a reader of its own, written from RULES,
// "Records", and from REQUESTS, "Stored rolls"; nothing of ours is called. Built and run by compare/rolls.
//
//     rolls            print what crates/roll_replay/stdin is to hold; its format is written in crates/roll_replay/src/main.rt
//     rolls --count    print how many rolls there are of each sort, how many have which answer, and how many break which rule of 24
#[allow(dead_code)]
mod scripts;

use scripts::Random;
use std::collections::BTreeSet;
use std::io::Write;

// ---- the reader

const HEAD: usize = 13;
const EOF: u16 = 18;

// RULES, "Values": how many bytes of values a kind has, where it is one.
fn value_bytes(kind: u16) -> Option<usize> {
    match kind {
        4 => Some(4),
        5 | 6 => Some(8),
        17 => Some(1),
        1..=18 | 32..=45 => Some(0),
        _ => None,
    }
}

// A record's fields, as its bytes have them.
struct Fields<'a> {
    length: usize,
    kind: u16,
    start: u32,
    end: u32,
    cut: u8,
    values: &'a [u8],
}

fn word(bytes: &[u8]) -> u32 {
    u32::from_le_bytes(bytes[..4].try_into().unwrap())
}

fn half(bytes: &[u8]) -> u16 {
    u16::from_le_bytes(bytes[..2].try_into().unwrap())
}

// The whole record of a known kind that stands before everything else, or the number that is met: 22 bytes are left, but fewer than four or
// than the record's length, 23 unknown kind or a length that isn't the kind's.
fn whole(rest: &[u8]) -> Result<Fields<'_>, u32> {
    let head = rest.get(..4).ok_or(22u32)?;
    let (length, kind) = (half(head) as usize, half(&head[2..]));
    let record = rest.get(..length).ok_or(22u32)?;
    if value_bytes(kind).map(|values| HEAD + values) != Some(length) {
        return Err(23);
    }
    Ok(Fields { length, kind, start: word(&record[4..]), end: word(&record[8..]), cut: record[12], values: &record[HEAD..] })
}

// The rules of 24 for one record, as REQUESTS, "Refusals of a record", lists them: each with a test of whether it is broken, after a token that ends at `previous`.
type Rule = (&'static str, fn(&Fields, u32) -> bool);

const RULES: [Rule; 9] = [
    ("a cut byte above 1", |f, _| f.cut > 1),
    ("an after-comment byte above 1", |f, _| f.kind == 17 && f.values[0] > 1),
    ("a negative IntLit value", |f, _| f.kind == 4 && i32::from_le_bytes(f.values.try_into().unwrap()) < 0),
    ("a negative LongLit value", |f, _| f.kind == 5 && i64::from_le_bytes(f.values.try_into().unwrap()) < 0),
    ("start past end", |f, _| f.start > f.end),
    ("start before the previous end", |f, previous| f.start < previous),
    ("Str content that starts outside its token", |f, _| f.kind == 6 && !(f.start..=f.end).contains(&word(f.values))),
    ("Str content that ends outside its token", |f, _| f.kind == 6 && !(f.start..=f.end).contains(&word(&f.values[4..]))),
    ("Str content ending before it starts", |f, _| f.kind == 6 && word(&f.values[4..]) < word(f.values)),
];

// The record that stands before everything else, by all three numbers in their order.
fn judged(rest: &[u8], previous: u32) -> Result<Fields<'_>, u32> {
    let fields = whole(rest)?;
    match RULES.iter().any(|(_, broken)| broken(&fields, previous)) {
        true => Err(24),
        false => Ok(fields),
    }
}

// How many tokens a roll holds, or the number and the place of its refusal. "24 also meets bytes after Eof, at the first of them and before any
// other check there, and a roll that ends without Eof, at the roll's length."
fn read(roll: &[u8]) -> Result<usize, (u32, usize)> {
    let (mut rest, mut previous, mut tokens, mut eof) = (roll, 0, 0, false);
    loop {
        let at = roll.len() - rest.len();
        if eof && rest.is_empty() {
            return Ok(tokens);
        }
        if eof || rest.is_empty() {
            return Err((24, at));
        }
        let fields = judged(rest, previous).map_err(|number| (number, at))?;
        tokens += 1;
        (rest, previous, eof) = (&rest[fields.length..], fields.end, fields.kind == EOF);
    }
}

fn block(words: &[u32]) -> Vec<u8> {
    words.iter().flat_map(|word| word.to_le_bytes()).collect()
}

// The 16 bytes of a roll: number, place, token count, bytes of the roll; unused ones 0.
fn roll_block(roll: &[u8]) -> Vec<u8> {
    match read(roll) {
        Ok(tokens) => block(&[0, 0, tokens as u32, roll.len() as u32]),
        Err((number, place)) => block(&[number, place as u32, 0, 0]),
    }
}

// The 40 bytes of the record at an offset: number, place, kind, start, end, cut, 0, offset of the next record, then the values as they stand and
// zeros up to eight bytes; after a refusal all behind the place is 0. At or past the roll's length no record stands, and an Eof is given only
// where no bytes follow it.
fn record_block(roll: &[u8], at: u32, previous: u32) -> Vec<u8> {
    let refused = |number: u32, place: usize| block(&[number, place as u32, 0, 0, 0, 0, 0, 0, 0, 0]);
    let offset = roll.len().min(at as usize);
    let rest = &roll[offset..];
    if rest.is_empty() {
        return refused(24, roll.len());
    }
    let fields = match judged(rest, previous) {
        Ok(fields) => fields,
        Err(number) => return refused(number, offset),
    };
    let next = offset + fields.length;
    if fields.kind == EOF && next < roll.len() {
        return refused(24, next);
    }
    let mut out = block(&[0, 0, fields.kind as u32, fields.start, fields.end, fields.cut as u32, 0, next as u32]);
    out.extend_from_slice(fields.values);
    out.resize(40, 0);
    out
}

// Offset and previous end of each step of one who begins at 0 and goes on from what a block says, up to Eof or to a refusal. Such a one must
// come to what `read` says.
fn steps(roll: &[u8]) -> Vec<(u32, u32)> {
    let (mut steps, mut at, mut previous) = (Vec::new(), 0, 0);
    loop {
        steps.push((at, previous));
        let step = record_block(roll, at, previous);
        let (number, place, kind) = (word(&step), word(&step[4..]), word(&step[8..]));
        if number != 0 || kind == EOF as u32 {
            let end = read(roll);
            assert_eq!(end.err().unwrap_or((0, 0)), (number, place as usize));
            assert!(end.is_err() || end == Ok(steps.len()));
            return steps;
        }
        (at, previous) = (word(&step[28..]), word(&step[16..]));
    }
}

// ---- good rolls

#[derive(Clone)]
struct Token {
    kind: u16,
    start: u32,
    end: u32,
    cut: u8,
    values: Vec<u8>,
}

impl Token {
    fn record(&self) -> Vec<u8> {
        let mut out = Vec::new();
        out.extend(((HEAD + self.values.len()) as u16).to_le_bytes());
        out.extend(self.kind.to_le_bytes());
        out.extend(block(&[self.start, self.end]));
        out.push(self.cut);
        out.extend_from_slice(&self.values);
        out
    }

    fn cut(self, cut: u8) -> Token {
        Token { cut, ..self }
    }
}

fn plain(kind: u16, start: u32, end: u32) -> Token {
    Token { kind, start, end, cut: 0, values: vec![0; value_bytes(kind).unwrap_or(0)] }
}

fn int(start: u32, end: u32, value: u32) -> Token {
    Token { values: value.to_le_bytes().to_vec(), ..plain(4, start, end) }
}

fn long(start: u32, end: u32, value: u64) -> Token {
    Token { values: value.to_le_bytes().to_vec(), ..plain(5, start, end) }
}

fn text(start: u32, end: u32, from: u32, to: u32) -> Token {
    Token { values: block(&[from, to]), ..plain(6, start, end) }
}

fn newline(start: u32, end: u32, mark: u8) -> Token {
    Token { values: vec![mark], ..plain(17, start, end) }
}

fn eof(at: u32) -> Token {
    plain(EOF, at, at)
}

fn roll(tokens: &[Token]) -> Vec<u8> {
    tokens.iter().flat_map(Token::record).collect()
}

fn kinds() -> impl Iterator<Item = u16> {
    (1..=18).chain(32..=45)
}

// Of each width of record one, with Eof.
fn small() -> Vec<Vec<Token>> {
    vec![
        vec![plain(1, 0, 1), eof(1)],
        vec![int(0, 2, 0x0102_0304), eof(2)],
        vec![long(1, 4, 0x0102_0304_0506_0708), eof(4)],
        vec![text(2, 9, 3, 8), eof(9)],
        vec![newline(0, 2, 1), eof(2)],
    ]
}

// `x = 7 // n` LF `"a"`, the example of RULES, "Listing", and a LongLit behind it.
fn mixed() -> Vec<Token> {
    vec![plain(1, 0, 1), plain(43, 2, 3), int(4, 5, 7), newline(10, 11, 1), text(11, 14, 12, 13), long(15, 18, 12).cut(1), eof(18)]
}

// `s = "` U+202E `a` U+2069 `" // ` U+2066 LF `'` U+202A `'`, by the tokens that the published tokenize gives: such a script is refused by 29, but a
// roll of it that was stored before stays readable.
fn marked() -> Vec<Token> {
    vec![plain(1, 0, 1), plain(43, 2, 3), text(4, 13, 5, 12), newline(20, 21, 1), plain(7, 21, 26), eof(26)]
}

fn every_kind() -> Vec<Token> {
    let one = |(i, kind)| {
        let start = 3 * i as u32;
        match kind {
            6 => text(start, start + 2, start + 1, start + 2),
            _ => plain(kind, start, start + 2),
        }
    };
    kinds().filter(|&kind| kind != EOF).enumerate().map(one).chain([eof(100)]).collect()
}

// ---- the list

struct Case {
    roll: Vec<u8>,
    asked: Vec<(u32, u32)>,
}

#[derive(Default)]
struct List {
    sorts: Vec<(&'static str, Vec<Case>)>,
    known: BTreeSet<Vec<u8>>,
}

impl List {
    fn sort(&mut self, name: &'static str) {
        self.sorts.push((name, Vec::new()));
    }

    fn put_asked(&mut self, roll: Vec<u8>, asked: Vec<(u32, u32)>) {
        self.known.insert(roll.clone());
        self.sorts.last_mut().unwrap().1.push(Case { roll, asked });
    }

    // A roll with all its steps.
    fn put_whole(&mut self, roll: Vec<u8>) {
        let asked = steps(&roll);
        self.put_asked(roll, asked);
    }

    // A roll with its last step, the one that meets the refusal or Eof; unless the roll is listed already.
    fn put(&mut self, roll: Vec<u8>) {
        if !self.known.contains(&roll) {
            let asked = steps(&roll).pop().into_iter().collect();
            self.put_asked(roll, asked);
        }
    }
}

// The bytes of a roll with some of them put in place of others.
fn patched(roll: &[u8], at: usize, bytes: &[u8]) -> Vec<u8> {
    let mut out = roll.to_vec();
    out[at..at + bytes.len()].copy_from_slice(bytes);
    out
}

// One record between an Ident from 0 to 2 and Eof.
fn between(token: Token) -> Vec<Token> {
    let end = token.end;
    vec![plain(1, 0, 2), token, eof(end)]
}

const PLACES: [u32; 6] = [0, 1, 0x7FFF_FFFF, 0x8000_0000, 0xFFFF_FFFE, 0xFFFF_FFFF];

fn put_good(list: &mut List) {
    list.sort("good rolls, every step");
    for place in PLACES {
        list.put_whole(roll(&[eof(place)]));
        list.put_whole(roll(&[plain(EOF, 0, place).cut(1)]));
        list.put_whole(roll(&[text(0, place, 0, place), eof(place)]));
    }
    for kind in kinds().filter(|&kind| kind != EOF && kind != 6) {
        list.put_whole(roll(&[plain(kind, 3, 5).cut((kind % 2) as u8), eof(5)]));
    }
    for value in [1, 0x80, 0x8000, 0x80_0000, 0x7F00_0000, 0x7FFF_FFFF] {
        list.put_whole(roll(&[int(0, 9, value), eof(9)]));
        for shift in [0, 24, 32] {
            list.put_whole(roll(&[long(0, 9, (value as u64) << shift), eof(9)]));
        }
    }
    list.put_whole(roll(&[long(0, 9, i64::MAX as u64), eof(9)]));
    for (from, to) in [(4, 4), (4, 7), (5, 6), (4, 6), (5, 7), (6, 6), (7, 7)] {
        list.put_whole(roll(&[text(4, 7, from, to).cut(1), eof(7)]));
    }
    for (mark, cut) in [(0, 0), (0, 1), (1, 0), (1, 1)] {
        list.put_whole(roll(&[newline(0, 1, mark).cut(cut), newline(1, 3, 1 - mark), eof(3)]));
    }
    small().iter().for_each(|tokens| list.put_whole(roll(tokens)));
    list.put_whole(roll(&mixed()));
    list.put_whole(roll(&every_kind()));
    list.put_whole(roll(&marked()));
}

fn put_truncated(list: &mut List) {
    list.sort("truncated at every length");
    for tokens in small().into_iter().chain([mixed()]) {
        let whole = roll(&tokens);
        (0..whole.len()).for_each(|length| list.put(whole[..length].to_vec()));
    }
    list.sort("every kind, truncated about each record");
    let (whole, mut at) = (roll(&every_kind()), 0);
    for token in every_kind() {
        [at + HEAD - 1, at + HEAD].iter().for_each(|&length| list.put(whole[..length].to_vec()));
        at += token.record().len();
    }
}

fn put_changed(list: &mut List) {
    list.sort("each byte changed");
    for tokens in small().into_iter().chain([mixed()]) {
        let whole = roll(&tokens);
        for (at, &byte) in whole.iter().enumerate() {
            for changed in [byte.wrapping_add(1), byte ^ 0x80, 0, 0xFF] {
                list.put(patched(&whole, at, &[changed]));
            }
        }
    }
}

fn put_joined(list: &mut List) {
    list.sort("rolls joined");
    let rolls: Vec<Vec<Token>> = small().into_iter().chain([vec![eof(0)], mixed()]).collect();
    for first in &rolls {
        for second in &rolls {
            list.put([roll(first), roll(second)].concat());
            // without the first one's Eof
            list.put([roll(&first[..first.len() - 1]), roll(second)].concat());
        }
    }
    list.sort("bytes at the end");
    for tokens in [vec![], vec![plain(1, 0, 1)], vec![eof(0)], mixed()] {
        for byte in [0, 1, 4, 13, 0xFF] {
            for count in [1, 2, 3, 4, 13, 14] {
                list.put([roll(&tokens), vec![byte; count]].concat());
            }
        }
    }
}

fn put_exchanged(list: &mut List) {
    list.sort("records exchanged, doubled and left out");
    for tokens in small().into_iter().chain([mixed()]) {
        for i in 0..tokens.len() {
            for j in 0..i {
                let mut exchanged = tokens.clone();
                exchanged.swap(i, j);
                list.put(roll(&exchanged));
            }
            let (before, behind) = (&tokens[..i], &tokens[i + 1..]);
            list.put(roll(&[before, behind].concat()));
            list.put(roll(&[&tokens[..=i], &tokens[i..]].concat()));
        }
    }
    for i in (1..every_kind().len()).step_by(3) {
        let mut exchanged = every_kind();
        exchanged.swap(i, i - 1);
        list.put(roll(&exchanged));
        let mut fewer = every_kind();
        fewer.remove(i);
        list.put(roll(&fewer));
    }
}

fn put_kinds(list: &mut List) {
    list.sort("each kind with each length");
    for kind in (0..=47).chain([63, 64, 127, 128, 255, 256, 257, 256 + 18, 4096, 0x8000, 0xFFFF]) {
        let values = block(if kind == 6 { &[3, 4] } else { &[0, 0] });
        for count in [0, 1, 4, 8] {
            list.put(roll(&between(Token { values: values[..count].to_vec(), ..plain(kind, 2, 5) })));
        }
    }
    list.sort("wrong lengths");
    for token in
        [plain(1, 2, 5), plain(4, 2, 5), plain(5, 2, 5), text(2, 5, 2, 5), plain(17, 2, 5), plain(19, 2, 5), plain(45, 2, 5), eof(5)]
    {
        let whole = roll(&between(token));
        let left = (whole.len() - HEAD) as u16;
        for length in (0..=24).chain([left - 1, left, left + 1, 255, 256 + 13, 0x8000 + 13, 0xFFFF]) {
            list.put(patched(&whole, HEAD, &length.to_le_bytes()));
        }
    }
}

fn put_values(list: &mut List) {
    list.sort("values about their limits");
    for value in [0x7FFF_FFFF, 0x8000_0000, 0x8000_0001, 0xFFFF_FFFF, 0xFFFF_FFFE, 0x8080_8080, 0x7F80_8080, 0x0000_0080] {
        list.put(roll(&between(int(2, 5, value))));
        for other in [0, 0x7FFF_FFFF, 0x8000_0000, 0xFFFF_FFFF] {
            list.put(roll(&between(long(2, 5, (value as u64) << 32 | other))));
        }
    }
    for byte in [0, 1, 2, 3, 127, 128, 255] {
        list.put(roll(&between(newline(2, 5, byte))));
        for token in [plain(1, 2, 5), int(2, 5, 1), long(2, 5, 1), text(2, 5, 2, 5), newline(2, 5, 1), eof(5), plain(32, 2, 5)] {
            list.put(roll(&between(token.cut(byte))));
        }
    }
    for from in [0, 2, 3, 4, 5, 6, 7, 0x8000_0004, 0xFFFF_FFFF] {
        for to in [0, 2, 3, 4, 5, 6, 7, 0x8000_0004, 0xFFFF_FFFF] {
            list.put(roll(&between(text(3, 6, from, to))));
        }
    }
    list.sort("places about each other");
    for start in [4, 5, 6, 8] {
        for end in [4, 5, 6, 8] {
            for at in [4, 5, 6, 8, 9] {
                list.put(roll(&[plain(1, 2, 5), plain(2, start, end), eof(at)]));
            }
        }
    }
    for first in PLACES {
        for second in PLACES {
            list.put(roll(&[plain(3, first, first), plain(7, second, second), eof(second)]));
            list.put(roll(&[plain(16, first, second), eof(first)]));
        }
    }
}

// Two faults in one record, or a fault and the end: which of them is met shows the order of the checks.
fn put_pairs(list: &mut List) {
    list.sort("two faults at once");
    for token in [plain(2, 2, 5), int(2, 5, 7), long(2, 5, 7), text(2, 5, 3, 4), newline(2, 5, 1), eof(5)] {
        let whole = roll(&between(token));
        let mut faults: Vec<(usize, Vec<u8>)> = vec![
            (0, 21u16.to_le_bytes().to_vec()),
            (0, 0u16.to_le_bytes().to_vec()),
            (0, 0xFFFFu16.to_le_bytes().to_vec()),
            (2, 19u16.to_le_bytes().to_vec()),
            (2, 0xFFFFu16.to_le_bytes().to_vec()),
            (4, block(&[1])),
            (8, block(&[1])),
            (12, vec![2]),
        ];
        if whole.len() > 3 * HEAD {
            faults.push((HEAD, vec![0xFF; whole.len() - 3 * HEAD]));
        }
        for (i, (at, bytes)) in faults.iter().enumerate() {
            let one = patched(&whole, HEAD + at, bytes);
            for length in [HEAD + 3, HEAD + 4, whole.len() - HEAD - 1, whole.len() - HEAD, whole.len() - 1] {
                list.put(one[..length].to_vec());
            }
            // behind an Eof
            list.put([roll(&[eof(0)]), one[HEAD..].to_vec()].concat());
            for (at, bytes) in &faults[..i] {
                list.put(patched(&one, HEAD + at, bytes));
            }
        }
    }
}

fn put_elsewhere(list: &mut List) {
    list.sort("records asked for elsewhere than at a step");
    for whole in [roll(&mixed()), [roll(&mixed()), vec![0]].concat()] {
        let far = [0x7FFF_FFFF, 0x8000_0000, 0xFFFF_FFFF];
        let mut places: Vec<(u32, u32)> = (0..whole.len() as u32 + 3).chain(far).map(|at| (at, 0)).collect();
        for (at, previous) in steps(&whole) {
            places
                .extend([0, previous.wrapping_sub(1), previous + 1, previous + 2, 0x8000_0000, 0xFFFF_FFFF].map(|previous| (at, previous)));
        }
        list.put_asked(whole, places);
    }
    list.put_asked(Vec::new(), vec![(0, 0), (0, 1), (1, 0), (0xFFFF_FFFF, 0xFFFF_FFFF)]);
}

// Rolls of a few tokens, most of them damaged in one to three bytes and some truncated, each with a record asked for at any offset.
fn put_random(list: &mut List) {
    list.sort("at random, of one seed");
    let mut random = Random(15);
    for _ in 0..120 {
        let mut tokens = Vec::new();
        let mut at = 0;
        for _ in 0..random.below(4) {
            let start = at + random.below(3) as u32;
            let end = start + random.below(9) as u32;
            let kind = kinds().filter(|&kind| kind != EOF).nth(random.below(31)).unwrap();
            tokens.push(match kind {
                4 => int(start, end, random.next() as u32 >> 1),
                5 => long(start, end, random.next() >> 1),
                6 => text(start, end, start, end),
                17 => newline(start, end, random.below(2) as u8),
                _ => plain(kind, start, end).cut(random.below(2) as u8),
            });
            at = end;
        }
        tokens.push(eof(at));
        let mut damaged = roll(&tokens);
        for _ in 0..random.below(4) {
            let place = random.below(damaged.len());
            damaged[place] = random.next() as u8;
        }
        if random.below(4) == 0 {
            damaged.truncate(random.below(damaged.len()));
        }
        let mut asked = vec![*steps(&damaged).last().unwrap()];
        asked.push((random.below(damaged.len() + 2) as u32, random.below(20) as u32));
        list.put_asked(damaged, asked);
    }
}

fn listed() -> List {
    let mut list = List::default();
    for put in
        [put_good, put_truncated, put_changed, put_joined, put_exchanged, put_kinds, put_values, put_pairs, put_elsewhere, put_random]
    {
        put(&mut list);
    }
    list
}

fn print_list(list: &List) {
    let (mut out, mut cases) = (Vec::new(), 0);
    for case in list.sorts.iter().flat_map(|(_, cases)| cases) {
        out.extend(block(&[case.roll.len() as u32, case.asked.len() as u32]));
        out.extend(roll_block(&case.roll));
        out.extend_from_slice(&case.roll);
        for &(at, previous) in &case.asked {
            out.extend(block(&[at, previous]));
            out.extend(record_block(&case.roll, at, previous));
        }
        cases += 1;
    }
    std::io::stdout().write_all(&out).unwrap();
    eprintln!("rolls: {cases} rolls listed, {} bytes", out.len());
}

// How many answers are which number.
#[derive(Default)]
struct Tally([usize; 4]);

const NUMBERS: [u32; 4] = [0, 22, 23, 24];

impl Tally {
    fn count(&mut self, block: &[u8]) {
        self.0[NUMBERS.iter().position(|&number| number == word(block)).unwrap()] += 1;
    }

    fn add(&mut self, other: &Tally) {
        (0..4).for_each(|i| self.0[i] += other.0[i]);
    }

    fn all(&self) -> usize {
        self.0.iter().sum()
    }
}

impl std::fmt::Display for Tally {
    fn fmt(&self, f: &mut std::fmt::Formatter) -> std::fmt::Result {
        let [good, short, unknown, wrong] = self.0;
        write!(f, "{:5}: {good:5} are 0, {short:4} are 22, {unknown:4} are 23, {wrong:4} are 24", self.all())
    }
}

// Of the records that get 24, how many break each rule; two more rules are not a record's own.
fn print_rules(list: &List) {
    let mut broken = [0; RULES.len()];
    let (mut no_eof, mut behind_eof) = (0, 0);
    for case in list.sorts.iter().flat_map(|(_, cases)| cases) {
        let Err((24, place)) = read(&case.roll) else { continue };
        let &(at, previous) = steps(&case.roll).last().unwrap();
        let fields = whole(&case.roll[at as usize..]);
        match fields {
            _ if at as usize == case.roll.len() => no_eof += 1,
            Ok(_) if place != at as usize => behind_eof += 1,
            Ok(fields) => (0..RULES.len()).for_each(|i| broken[i] += RULES[i].1(&fields, previous) as usize),
            Err(_) => unreachable!(),
        }
    }
    println!("rolls that are 24, by the rule that is broken (some break more than one):");
    for (rule, count) in RULES.iter().map(|(rule, _)| *rule).zip(broken).chain([("no Eof", no_eof), ("bytes after Eof", behind_eof)]) {
        println!("{count:5}: {rule}");
    }
}

fn print_counts(list: &List) {
    let (mut rolls, mut records) = (Tally::default(), Tally::default());
    for (name, cases) in &list.sorts {
        let mut sort = Tally::default();
        for case in cases {
            sort.count(&roll_block(&case.roll));
            case.asked.iter().for_each(|&(at, previous)| records.count(&record_block(&case.roll, at, previous)));
        }
        println!("{sort}; {name}");
        rolls.add(&sort);
    }
    println!("{rolls}; in all");
    println!("{records}; of the records asked for");
    print_rules(list);
}

fn main() {
    let list = listed();
    match std::env::args().nth(1).as_deref() {
        None => print_list(&list),
        Some("--count") => print_counts(&list),
        Some(option) => {
            eprintln!("rolls: no option {option}");
            std::process::exit(2);
        }
    }
}
