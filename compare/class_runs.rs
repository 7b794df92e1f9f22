// What crates/class_runs must write, made by the published class functions of token.rs over rustc's own Unicode tables: for each class the
// maximal runs of the characters up to U+FFFF that belong to it, then how many characters were walked. Built and run by compare/class-runs.
use published::token::published_class;

const NAMES: [&str; 4] = ["id-start", "id-char", "op-char", "printable"];

// The runs of a class among the characters of one part, and how many characters the part has.
fn print_runs(class: u32, part: std::ops::RangeInclusive<char>) -> u32 {
    let name = NAMES[class as usize];
    let mut run: Option<(char, char)> = None;
    let mut walked = 0;
    for c in part {
        walked += 1;
        run = match (run, published_class(class, c)) {
            (None, true) => Some((c, c)),
            (Some((first, _)), true) => Some((first, c)),
            (Some((first, last)), false) => {
                println!("{name} {:04X} {:04X}", first as u32, last as u32);
                None
            }
            (None, false) => None,
        };
    }
    if let Some((first, last)) = run {
        println!("{name} {:04X} {:04X}", first as u32, last as u32);
    }
    walked
}

fn main() {
    assert_eq!(char::UNICODE_VERSION, (16, 0, 0), "a rustc of another Unicode is no judge of the classes: set RUSTC");
    let mut walked = 0;
    for class in 0..4 {
        walked = print_runs(class, '\0'..='\u{D7FF}') + print_runs(class, '\u{E000}'..='\u{FFFF}');
    }
    println!("characters {walked}");
}
