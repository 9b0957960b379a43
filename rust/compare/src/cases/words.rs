//! The words of the table of cases: lines, numbers, bytes and ranges.

/// A line that is a case or prepares some, with the sentence that stands above it.
pub struct Line {
    pub sentence: &'static str,
    pub text: &'static str,
    pub command: &'static str,
    pub given: Vec<&'static str>,
    pub wanted: Vec<&'static str>,
}

/// The lines of the table; blank ones and those of `#` are for whoever reads it.
pub fn lines(table: &'static str) -> Vec<Line> {
    let mut sentence = "";
    let mut lines = Vec::new();
    for text in table.lines() {
        if text.starts_with('"') {
            sentence = text;
        } else if !text.is_empty() && !text.starts_with('#') {
            let (given, wanted) = text.split_once(" = ").unwrap_or((text, ""));
            let mut given = given.split_whitespace();
            lines.push(Line {
                sentence,
                text,
                command: given.next().unwrap_or_default(),
                given: given.collect(),
                wanted: wanted.split_whitespace().collect(),
            });
        }
    }
    lines
}

/// A word as its name and value; that of a bare word is empty.
pub fn halves(word: &str) -> (&str, &str) {
    word.split_once('=').unwrap_or((word, ""))
}

/// The number that the words give under this name.
pub fn named(given: &[String], name: &str) -> Option<u64> {
    let mut values = given.iter().map(|word| halves(word));
    values
        .find(|half| half.0 == name)
        .map(|half| number(half.1))
}

/// The words once for each of the values that they name: `type=0x09,0x11 version=1..9` is eighteen times.
pub fn each(given: &[&str]) -> Vec<Vec<String>> {
    let mut all = vec![Vec::new()];
    for word in given {
        let choices = choices(word);
        let with_each = |words: &Vec<String>| -> Vec<Vec<String>> {
            let with = |choice: &String| [words.clone(), vec![choice.clone()]].concat();
            choices.iter().map(with).collect()
        };
        all = all.iter().flat_map(with_each).collect();
    }
    all
}

fn choices(word: &str) -> Vec<String> {
    let (name, value) = halves(word);
    if value.is_empty() || ["body", "bytes", "filler"].contains(&name) {
        return vec![word.to_string()];
    }
    let mut choices = Vec::new();
    for range in value.split(',') {
        let (first, last) = range.split_once("..").unwrap_or((range, range));
        let (first, last) = (number(first), number(last));
        assert!(first <= last, "no values: {}", word);
        choices.extend((first..=last).map(|value| format!("{}={}", name, value)));
    }
    choices
}

/// A wanted word with its number in decimal and its bytes without dots.
pub fn plain(word: &str) -> String {
    match halves(word) {
        ("bytes", value) => format!("bytes={}", in_hex(&bytes(value))),
        (name, value) => match parsed(value) {
            Some(number) => format!("{}={}", name, number),
            None => word.to_string(),
        },
    }
}

/// `40`, `65_536`, `0x50`, `2^48`, `2^48-1`.
fn parsed(text: &str) -> Option<u64> {
    let (value, less) = text.split_once('-').unwrap_or((text, "0"));
    let value = match value.strip_prefix("2^") {
        Some(exponent) => 1 << digits(exponent)?,
        None => digits(value)?,
    };
    u64::try_from(value - digits(less)?).ok()
}

fn digits(text: &str) -> Option<u128> {
    let text = text.replace('_', "");
    match text.strip_prefix("0x") {
        Some(hex) => u128::from_str_radix(hex, 16).ok(),
        None => text.parse().ok(),
    }
}

pub fn number(text: &str) -> u64 {
    parsed(text).unwrap_or_else(|| panic!("no number: {}", text))
}

/// Bytes in hexadecimal, in groups between dots; `00*5` is a group five times, `-` no bytes.
pub fn bytes(text: &str) -> Vec<u8> {
    let mut bytes = Vec::new();
    for group in text.split('.').filter(|group| *group != "-") {
        let (hex, times) = group.split_once('*').unwrap_or((group, "1"));
        let byte = |at| {
            let pair = hex.get(at..at + 2);
            let byte = pair.and_then(|pair| u8::from_str_radix(pair, 16).ok());
            byte.unwrap_or_else(|| panic!("no bytes: {}", group))
        };
        let once: Vec<u8> = (0..hex.len()).step_by(2).map(byte).collect();
        bytes.extend(once.repeat(number(times) as usize));
    }
    bytes
}

pub fn in_hex(bytes: &[u8]) -> String {
    bytes.iter().map(|byte| format!("{:02X}", byte)).collect()
}
