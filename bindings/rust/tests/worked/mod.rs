//! Reads the worked cases of `tools/cases`. A case is lines of a word and
//! numbers, then an empty line.

#![allow(dead_code)] // No test has lines of all kinds.

/// The cases of a text.
pub fn cases(text: &str) -> impl Iterator<Item = &str> {
    text.split("\n\n").filter(|case| !case.is_empty())
}

/// The numbers of a line after its first word, where 5x199 is the number 5, 199
/// times; names between the numbers are passed over.
pub fn numbers(line: &str) -> Vec<usize> {
    let tokens = line.split(' ').skip(1);
    let run = |token: &str| {
        let (number, times) = token.split_once('x').unwrap_or((token, "1"));
        Some(std::iter::repeat_n(number.parse().ok()?, times.parse().ok()?))
    };
    tokens.filter_map(run).flatten().collect()
}

/// The lines of a case that begin with a word, as numbers.
pub fn lines<'a>(case: &'a str, word: &'a str) -> impl Iterator<Item = Vec<usize>> + 'a {
    case.lines().filter(move |line| line.split(' ').next() == Some(word)).map(numbers)
}

/// The bytes that a case has in hexadecimal after a word, if it has that line.
pub fn bytes(case: &str, word: &str) -> Option<Vec<u8>> {
    let line = case.lines().find(|line| line.split(' ').next() == Some(word))?;
    let digits = line.split(' ').nth(1).unwrap_or("");
    let byte = |at: usize| u8::from_str_radix(&digits[at..at + 2], 16).unwrap();
    Some((0..digits.len()).step_by(2).map(byte).collect())
}

/// The numbers of such a line, 16 bits each.
pub fn words(case: &str, word: &str) -> Vec<u16> {
    all_words(case, word).next().unwrap_or_else(|| panic!("no {word} in {case}"))
}

/// The numbers of all such lines, 16 bits each.
pub fn all_words<'a>(case: &'a str, word: &'a str) -> impl Iterator<Item = Vec<u16>> + 'a {
    let short = |line: Vec<usize>| line.into_iter().map(|number| number.try_into().unwrap());
    lines(case, word).map(move |line| short(line).collect())
}

/// The sum over all entries of (position + 1) × entry, modulo 2^32.
pub fn sum(layout: &[u16]) -> usize {
    let products = (1..).zip(layout).map(|(place, &entry)| place * u64::from(entry));
    products.sum::<u64>() as u32 as usize
}
