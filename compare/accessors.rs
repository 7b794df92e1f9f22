
// Appended to a copy of the published token.rs by compare/published: its class functions under public names, in the order of RULES, "Characters".
pub fn published_class(class: u32, c: char) -> bool {
    match class {
        0 => is_id_start(c),
        1 => is_id_char(c),
        2 => is_op_char(c),
        _ => is_printable_char(c),
    }
}
