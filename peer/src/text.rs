//! Words, decimal numbers and hexadecimal digits.

/// The words of a line, split at spaces, tabs and carriage returns.
pub fn words(line: &[u8]) -> Vec<&[u8]> {
    line.split(|byte| matches!(byte, b' ' | b'\t' | b'\r')).filter(|word| !word.is_empty()).collect()
}

/// The lines of an input; a last one without its newline counts.
pub fn lines(input: &[u8]) -> Vec<&[u8]> {
    let body = input.strip_suffix(b"\n").unwrap_or(input);
    if input.is_empty() {
        Vec::new()
    } else {
        body.split(|byte| *byte == b'\n').collect()
    }
}

/// Whether a line with these words is passed over.
pub fn is_passed_over(words: &[&[u8]]) -> bool {
    words.first().is_none_or(|word| word.starts_with(b"#"))
}

/// A decimal number of any length; what is above all that has a meaning stays above it.
pub fn decimal(word: &[u8]) -> Option<u64> {
    if word.is_empty() {
        return None;
    }
    word.iter().try_fold(0u64, |sum, byte| {
        let digit = byte.is_ascii_digit().then(|| u64::from(byte - b'0'))?;
        Some(sum.saturating_mul(10).saturating_add(digit))
    })
}

/// The bytes that hexadecimal digits of either case stand for.
pub fn from_hexadecimal(word: &[u8]) -> Option<Vec<u8>> {
    let digits = word.iter().map(|byte| char::from(*byte).to_digit(16)).collect::<Option<Vec<u32>>>()?;
    let pairs = digits.chunks_exact(2);
    if !pairs.remainder().is_empty() {
        return None;
    }
    Some(pairs.map(|pair| (pair[0] * 16 + pair[1]) as u8).collect())
}

pub fn to_hexadecimal(bytes: &[u8]) -> String {
    bytes.iter().map(|byte| format!("{byte:02x}")).collect()
}
