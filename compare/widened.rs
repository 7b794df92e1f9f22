
// Appended by compare/published to a copy of the published token.rs in which the class of this name has another one.
fn is_op_char(c: char) -> bool {
    published_op_char(c) || crate::symbols::is_math_or_other_symbol(c)
}
