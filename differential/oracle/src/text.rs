//! Lines of key=value, numbers, names and lists, as the scope's rules spell them.

/// Why a text is not one that the Rust and the project are compared on: the scope's refusal
/// number (0 where it has none) and what is wrong in plain words.
#[derive(Debug, Clone, PartialEq, Eq)]
pub struct Refusal {
    pub number: u8,
    pub message: String,
}

impl std::fmt::Display for Refusal {
    fn fmt(&self, f: &mut std::fmt::Formatter<'_>) -> std::fmt::Result {
        if self.number == 0 {
            f.write_str(&self.message)
        } else {
            write!(f, "{} (refusal {})", self.message, self.number)
        }
    }
}

pub fn refuse<T>(number: u8, message: impl Into<String>) -> Result<T, Refusal> {
    Err(Refusal {
        number,
        message: message.into(),
    })
}

/// Whether a text must keep the scope's rules. `Off` leaves only what a line must look like, so
/// that the Rust can be shown what the scope refuses.
#[derive(Debug, Clone, Copy, PartialEq, Eq)]
pub enum Rules {
    On,
    Off,
}

impl Rules {
    /// The greatest number of a site's positions and values.
    fn greatest(self) -> u64 {
        match self {
            Rules::On => MAX_NUMBER,
            Rules::Off => u64::from(u32::MAX),
        }
    }
}

pub const NON_REF: &str = "<NON_REF>";
pub const SPAN_DEL: &str = "*";
pub const MAX_NUMBER: u64 = 2_147_483_647;
pub const MAX_TEXT: usize = 16_777_216;
pub const MAX_SAMPLES: usize = 64;
pub const MAX_SITES: usize = 4096;
pub const MAX_MERGED_ALLELES: usize = 16;

/// The lines of a text, read front to back.
pub struct Lines<'a> {
    lines: Vec<&'a str>,
    at: usize,
}

impl<'a> Lines<'a> {
    pub fn new(text: &'a str) -> Result<Self, Refusal> {
        if text.len() > MAX_TEXT {
            return refuse(2, "the text is too long");
        }
        let mut lines: Vec<&str> = text.split('\n').collect();
        if lines.pop() != Some("") {
            return refuse(1, "the last line does not end with LF");
        }
        Ok(Lines { lines, at: 0 })
    }

    pub fn ended(&self) -> bool {
        self.at == self.lines.len()
    }

    /// The value of the next line, which must have this key.
    pub fn value(&mut self, key: &str) -> Result<&'a str, Refusal> {
        let Some(&line) = self.lines.get(self.at) else {
            return refuse(1, format!("the line {key}= is missing at the end"));
        };
        self.at += 1;
        match line.split_once('=') {
            Some((k, value)) if k == key => Ok(value),
            _ => refuse(1, format!("line {}: {key}= is expected", self.at)),
        }
    }

    /// Whether the next line has this key.
    pub fn next_is(&self, key: &str) -> bool {
        self.lines
            .get(self.at)
            .and_then(|line| line.split_once('='))
            .is_some_and(|(k, _)| k == key)
    }

    pub fn line_number(&self) -> usize {
        self.at
    }
}

pub fn number(value: &str) -> Result<u64, Refusal> {
    number_to(value, MAX_NUMBER)
}

/// A position of a site.
pub fn position(value: &str, rules: Rules) -> Result<u64, Refusal> {
    number_to(value, rules.greatest())
}

fn number_to(value: &str, greatest: u64) -> Result<u64, Refusal> {
    let plain = !value.is_empty()
        && value.len() <= 10
        && value.bytes().all(|b| b.is_ascii_digit())
        && (value == "0" || !value.starts_with('0'));
    match value.parse::<u64>() {
        Ok(n) if plain && n <= greatest => Ok(n),
        _ => refuse(1, format!("`{value}` is not a number")),
    }
}

pub fn optional_number(value: &str, rules: Rules) -> Result<Option<u32>, Refusal> {
    if value == "." {
        return Ok(None);
    }
    Ok(Some(number_to(value, rules.greatest())? as u32))
}

pub fn optional_numbers(value: &str, rules: Rules) -> Result<Option<Vec<u32>>, Refusal> {
    if value == "." {
        return Ok(None);
    }
    value
        .split(',')
        .map(|v| Ok(number_to(v, rules.greatest())? as u32))
        .collect::<Result<Vec<u32>, Refusal>>()
        .map(Some)
}

pub fn name(value: &str) -> Result<String, Refusal> {
    let spelled = (1..=32).contains(&value.len())
        && value
            .bytes()
            .all(|b| (33..=126).contains(&b) && b != b'=' && b != b',');
    if !spelled {
        return refuse(1, format!("`{value}` is not a name"));
    }
    Ok(value.to_string())
}

/// Letters in either case (Note 6).
pub fn is_letters(allele: &str, most: usize) -> bool {
    (1..=most).contains(&allele.len()) && allele.bytes().all(|b| b"ACGTNacgtn".contains(&b))
}

/// An allele or bases as the scope reads them (Note 6): letters are capitals. What is no letters, `<NON_REF>` and `*` too, has one spelling.
pub fn capitals(spelling: &str) -> String {
    if is_letters(spelling, usize::MAX) {
        spelling.to_ascii_uppercase()
    } else {
        spelling.to_string()
    }
}

/// REF and the ALTs, at most `count` of `letters` letters, none twice, in whatever case.
pub fn check_alleles(
    reference: &str,
    alts: &[String],
    count: usize,
    letters: usize,
) -> Result<(), Refusal> {
    if !is_letters(reference, letters) {
        return refuse(5, format!("REF `{reference}`"));
    }
    let mut read = vec![capitals(reference)];
    for alt in alts {
        if alt != NON_REF && alt != SPAN_DEL && !is_letters(alt, letters) {
            return refuse(5, format!("ALT `{alt}`"));
        }
        if read.contains(&capitals(alt)) {
            return refuse(5, format!("allele `{alt}` stands twice"));
        }
        read.push(capitals(alt));
    }
    if !(2..=count).contains(&(1 + alts.len())) {
        return refuse(5, format!("{} alleles", 1 + alts.len()));
    }
    Ok(())
}

pub fn is_block(alts: &[String]) -> bool {
    alts.len() == 1 && alts[0] == NON_REF
}

pub fn pairs(alleles: usize) -> usize {
    alleles * (alleles + 1) / 2
}

pub fn comma<T: ToString>(values: &[T]) -> String {
    let parts: Vec<String> = values.iter().map(T::to_string).collect();
    parts.join(",")
}

pub fn or_dot<T: ToString>(value: Option<T>) -> String {
    value.map_or(".".to_string(), |v| v.to_string())
}

pub fn comma_or_dot<T: ToString>(values: &Option<Vec<T>>) -> String {
    values.as_ref().map_or(".".to_string(), |v| comma(v))
}

pub fn line(out: &mut String, key: &str, value: impl AsRef<str>) {
    out.push_str(key);
    out.push('=');
    out.push_str(value.as_ref());
    out.push('\n');
}
