//! Numbers and lines of the texts that are read.

/// "Numbers have one to three digits, no leading zero except 0 itself."
pub fn number(bytes: &[u8]) -> Option<usize> {
    let digits = (1..=3).contains(&bytes.len()) && bytes.iter().all(u8::is_ascii_digit);
    if !digits || (bytes.len() > 1 && bytes[0] == b'0') {
        return None;
    }
    Some(bytes.iter().fold(0, |value, digit| 10 * value + usize::from(digit - b'0')))
}

/// The fields of a list, "comma between".
pub fn fields(list: &[u8]) -> impl Iterator<Item = &[u8]> {
    list.split(|&byte| byte == b',')
}

/// A line of the key and exactly `COUNT` numbers.
pub fn numbers<const COUNT: usize>(line: &[u8], key: &[u8]) -> Option<[usize; COUNT]> {
    let mut fields = fields(line.strip_prefix(key)?);
    let mut values = [0; COUNT];
    for value in &mut values {
        *value = number(fields.next()?)?;
    }
    fields.next().is_none().then_some(values)
}

/// "A line may now end in 10 alone or in 13 followed by 10": the first line without its end, and what
/// follows it.
pub fn split_line(text: &[u8]) -> Option<(&[u8], &[u8])> {
    let end = text.iter().position(|&byte| byte == b'\n')?;
    let line = &text[..end];
    Some((line.strip_suffix(b"\r").unwrap_or(line), &text[end + 1..]))
}

#[cfg(test)]
mod tests {
    use super::*;

    #[test]
    fn numbers_of_one_to_three_digits() {
        for value in 0..1000 {
            assert_eq!(number(value.to_string().as_bytes()), Some(value));
        }
        for bytes in
            [&b""[..], b"00", b"01", b"007", b"1000", b"0000", b"+1", b"-1", b" 1", b"1 ", b"a"]
        {
            assert_eq!(number(bytes), None, "{bytes:?}");
        }
        for byte in (0..=255u8).filter(|byte| !byte.is_ascii_digit()) {
            assert_eq!([number(&[byte]), number(&[b'1', byte]), number(&[byte, b'1'])], [None; 3]);
        }
    }

    #[test]
    fn lines_and_lists() {
        assert_eq!(split_line(b"a\nb\n"), Some((&b"a"[..], &b"b\n"[..])));
        assert_eq!(split_line(b"\n"), Some((&b""[..], &b""[..])));
        assert_eq!(split_line(b"a"), None);
        assert_eq!(split_line(b"a\r\nb\n"), Some((&b"a"[..], &b"b\n"[..])));
        assert_eq!(split_line(b"\r\n"), Some((&b""[..], &b""[..])));
        assert_eq!(split_line(b"a\r\r\nb"), Some((&b"a\r"[..], &b"b"[..])));
        assert_eq!(split_line(b"a\rb\n\rc"), Some((&b"a\rb"[..], &b"\rc"[..])));
        assert_eq!(split_line(b"a\r"), None);
        assert_eq!(numbers(b"k=1,20", b"k="), Some([1, 20]));
        assert_eq!(numbers::<2>(b"k=1", b"k="), None);
        assert_eq!(numbers::<2>(b"k=1,2,3", b"k="), None);
        assert_eq!(numbers::<1>(b"k1", b"k="), None);
    }
}
