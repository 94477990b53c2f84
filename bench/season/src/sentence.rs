//! A refusal in words (paper 02: 'Tell the bosun in words').

/// The word of a refusal by its number: up to 17 from paper 01's table, the others from paper 02, which leaves 23 unused.
fn word(number: u32) -> Option<&'static str> {
    let word = match number {
        1 => "torn",
        2 => "heading",
        3 => "off the tape",
        4 => "miscounted",
        5 => "outsized rival",
        6 => "stranger",
        7 => "too bulky",
        8 => "log full",
        9 => "closed",
        10 => "out of turn",
        11 => "not aboard",
        12 => "aboard",
        13 => "overstowed",
        14 => "missing",
        15 => "short page",
        16 => "long roll",
        17 => "foul locker",
        18 => "odd rule",
        19 => "misnumbered",
        20 => "gone",
        21 => "idle",
        22 => "unpaired",
        24 => "given up",
        25 => "many sails",
        26 => "long passage",
        27 => "no plan",
        _ => return None,
    };
    Some(word)
}

/// The sentence of a refusal, with its line feed; none for a number that has no word. The line is told if there is one, and the
/// item (paper 01: the sail) for the refusals that are about one.
pub fn sentence(number: u32, line: usize, item: usize) -> Option<String> {
    let mut sentence = word(number)?.to_string();
    if line != 0 {
        sentence += &format!(", line {line}");
    }
    if matches!(number, 6 | 7 | 11 | 12 | 14 | 19 | 20) {
        sentence += &format!(", sail {item}");
    }
    Some(sentence + ".\n")
}
