// The characters of general categories Sm and So up to U+FFFF, by the ranges of compare/math-or-other-symbol.txt, which compare/published puts behind
// this text.
pub fn is_math_or_other_symbol(c: char) -> bool {
    let at = RANGES.partition_point(|&(_, high)| high < c as u32);
    RANGES.get(at).is_some_and(|&(low, _)| low <= c as u32)
}

