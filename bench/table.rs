// Prints the counts of bench/count as a table. Where two files are named it draws them into the first, and writes the tables of docs/COSTS.md
// into the second. On standard input it gets lines of eight fields between tabs: row or function, group, name, accepted or refused, who, bytes,
// calls, instructions of all calls. The group of a function is its text, or nothing where that is one contract.
mod plot;

use std::io::Read;

// Instructions of one call: ours, tokenize, the peer.
pub type Three = [Option<f64>; 3];

pub struct Line {
    pub group: String,
    pub name: String,
    pub bytes: f64,
    pub accepted: Three,
    pub refused: Three,
}

pub const WHO: [&str; 3] = ["ours", "tokenize", "re2c"];

// A kind of piece: its short form and its long one, or a mixture.
pub struct Kind<'a> {
    pub group: &'a str,
    pub name: &'a str,
    pub forms: [Option<&'a Line>; 2],
}

pub fn kinds(lines: &[Line]) -> Vec<Kind> {
    let mut kinds: Vec<Kind> = Vec::new();
    for line in lines.iter().filter(|line| line.group != "sizes") {
        let short = line.name.strip_suffix(", short");
        let long = line.name.strip_suffix(", long");
        match (long, kinds.last_mut()) {
            (Some(name), Some(last)) if last.name == name => last.forms[1] = Some(line),
            _ => kinds.push(Kind { group: &line.group, name: short.unwrap_or(&line.name), forms: [Some(line), None] }),
        }
    }
    kinds
}

// A byte of script.
pub fn each(line: &Line, three: &Three) -> Three {
    three.map(|x| x.map(|x| x / line.bytes))
}

fn add(lines: &mut Vec<Line>, field: &[&str]) {
    let number = |at: usize| field[at].parse::<f64>().expect("a number");
    let (bytes, each) = (number(5), number(7) / number(6));
    let who = WHO.iter().position(|who| *who == field[4]).expect("one of three");
    if !lines.last().is_some_and(|line| line.group == field[1] && line.name == field[2]) {
        let (group, name) = (field[1].to_string(), field[2].to_string());
        lines.push(Line { group, name, bytes, accepted: [None; 3], refused: [None; 3] });
    }
    let line = lines.last_mut().unwrap();
    let three = if field[3] == "accepted" { &mut line.accepted } else { &mut line.refused };
    three[who] = Some(each);
}

// Three digits that count.
fn digits(x: f64) -> String {
    match x {
        x if x < 10.0 => format!("{x:.2}"),
        x if x < 100.0 => format!("{x:.1}"),
        x => format!("{x:.0}"),
    }
}

fn cell(x: Option<f64>) -> String {
    x.map_or("-".to_string(), digits)
}

fn ratio(three: &Three, who: usize) -> Option<f64> {
    Some(three[who]? / three[0]?)
}

fn show(line: &Line) {
    let ([a, b, c], [d, e, f]) = (each(line, &line.accepted).map(cell), each(line, &line.refused).map(cell));
    let (one, two) = (cell(ratio(&line.accepted, 1)), cell(ratio(&line.accepted, 2)));
    println!("{:<30} {:>9} {a:>8} {b:>8} {c:>8} {one:>9} {two:>9} {d:>9} {e:>8} {f:>8}", line.name, line.bytes);
}

// Measuring also by what a call takes that writes the same text.
fn show_function(line: &Line, functions: &[Line]) {
    let each = line.accepted[0].unwrap();
    let text = if line.group.is_empty() { String::new() } else { format!(", {}", line.group) };
    let write = functions.iter().find(|other| other.group == line.group && other.name == "write");
    let by_write = match write {
        Some(write) if line.name == "measure" => format!(", {:.2} of write", each / write.accepted[0].unwrap()),
        _ => String::new(),
    };
    println!("{}{text}: {each:.0} instructions for {} bytes, {:.2} a byte{by_write}", line.name, line.bytes, each / line.bytes);
}

// The tables of docs/COSTS.md.
fn pages(lines: &[Line]) -> String {
    let head = "| | ours | `tokenize` | re2c | ours | `tokenize` | re2c |\n|---|---|---|---|---|---|---|\n";
    let cells = |three: Option<Three>| three.unwrap_or_default().map(cell).join(" | ");
    let mut out = format!("Short form, then long form:\n\n{head}");
    for kind in kinds(lines) {
        let [short, long] = kind.forms.map(|form| cells(form.map(|line| each(line, &line.accepted))));
        out += &format!("| {} | {short} | {long} |\n", kind.name);
    }
    out += &format!("\nAccepted, then refused at the end:\n\n{head}");
    for line in lines.iter().filter(|line| line.group == "sizes") {
        let [accepted, refused] = [&line.accepted, &line.refused].map(|three| cells(Some(each(line, three))));
        out += &format!("| {} | {accepted} | {refused} |\n", line.name);
    }
    out
}

fn main() {
    let mut text = String::new();
    std::io::stdin().read_to_string(&mut text).expect("counts");
    let (mut lines, mut functions) = (Vec::new(), Vec::new());
    for line in text.lines() {
        let field: Vec<&str> = line.split('\t').collect();
        add(if field[0] == "row" { &mut lines } else { &mut functions }, &field);
    }
    for line in &functions {
        show_function(line, &functions);
    }
    println!();
    println!("Instructions a byte of script; accepted, and with a byte at the end that is refused. by ours: so many times ours; above 1, ours takes");
    println!("fewer. ours is ergo_tokenize, which checks UTF-8 and looks for direction marks, as re2c's does; tokenize's &str has the check behind it.");
    println!();
    println!(
        "{:<30} {:>9} {:>8} {:>8} {:>8} {:>9} {:>9} {:>9} {:>8} {:>8}",
        "row", "bytes", "ours", "tokenize", "re2c", "tokenize", "re2c", "refused:", "", ""
    );
    println!("{:<30} {:>9} {:>8} {:>8} {:>8} {:>9} {:>9} {:>9} {:>8} {:>8}", "", "", "", "", "", "by ours", "by ours", "ours", "tokenize", "re2c");
    for line in &lines {
        show(line);
    }
    let files: Vec<String> = std::env::args().skip(1).collect();
    if let [drawing, tables] = &files[..] {
        std::fs::write(drawing, plot::draw(&lines)).expect("the drawing is written");
        std::fs::write(tables, pages(&lines)).expect("the tables are written");
    }
}
