//! Millimetres: a unit of the graph is 0.01 mm, and every number is told exactly.

/// A coordinate or a length in mm.
pub fn mm(units: i64) -> String {
    decimal(units.into(), 2)
}

/// A doubled area in mm²: 20,000 of it are one.
pub fn square_mm(doubled: i128) -> String {
    decimal(doubled * 5, 5)
}

/// A whole number of the last of so many decimal places, without zeros at the end.
fn decimal(number: i128, places: usize) -> String {
    let sign = if number < 0 { "-" } else { "" };
    let digits = format!("{:0>1$}", number.unsigned_abs(), places + 1);
    let (whole, fraction) = digits.split_at(digits.len() - places);
    let fraction = fraction.trim_end_matches('0');
    let point = if fraction.is_empty() { "" } else { "." };
    format!("{sign}{whole}{point}{fraction}")
}

/// A count with its word, as `1 hole` and `2 holes`.
pub fn count(number: usize, word: &str) -> String {
    let ending = match word {
        _ if number == 1 => "",
        _ if word.ends_with("ch") || word.ends_with("ss") => "es",
        _ => "s",
    };
    format!("{number} {word}{ending}")
}
