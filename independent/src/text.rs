//! Lines, words and numbers of an input.

/// So many bytes of an input are taken.
const INPUT_BYTES: usize = 32_768;

pub struct Line<'a> {
    /// Counted from 1.
    pub number: usize,
    pub words: Vec<&'a [u8]>,
}

/// The lines that have a word. A line feed or the end ends a line, and words
/// stand between spaces; every other byte belongs to a word.
pub fn lines(input: &[u8]) -> Vec<Line<'_>> {
    let taken = &input[..input.len().min(INPUT_BYTES)];
    let all = taken.split(|&byte| byte == b'\n').enumerate();
    let read = all.map(|(index, line)| Line { number: index + 1, words: words(line) });
    read.filter(|line| !line.words.is_empty()).collect()
}

fn words(line: &[u8]) -> Vec<&[u8]> {
    line.split(|&byte| byte == b' ').filter(|word| !word.is_empty()).collect()
}

/// An optional minus and 1 to 9 digits.
pub fn number(word: &[u8]) -> Option<i64> {
    let (sign, digits) = match word {
        [b'-', digits @ ..] => (-1, digits),
        digits => (1, digits),
    };
    let good = (1..=9).contains(&digits.len()) && digits.iter().all(u8::is_ascii_digit);
    let value = |so_far: i64, digit: &u8| 10 * so_far + i64::from(digit - b'0');
    good.then(|| sign * digits.iter().fold(0, value))
}

/// All words as numbers; none if one of them is no number.
pub fn numbers(words: &[&[u8]]) -> Option<Vec<i64>> {
    words.iter().map(|word| number(word)).collect()
}
