//! Numbers in words.

/// So many things: `1 step`, `2 steps`.
pub fn many(count: usize, thing: &str) -> String {
    match count {
        1 => format!("1 {thing}"),
        _ => format!("{count} {thing}s"),
    }
}

/// Numbers from 0 to the last but one: `0`, `0 and 1`, `0 to 3`, with a letter before each.
pub fn below(count: usize, letter: &str) -> String {
    match count {
        0 => "none".to_string(),
        1 => format!("{letter}0 alone"),
        2 => format!("{letter}0 and {letter}1"),
        _ => format!("{letter}0 to {letter}{}", count - 1),
    }
}
