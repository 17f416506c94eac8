//! Hexadecimal text, both ways.

use std::fmt::Write;

/// Upper-case digits, no separators.
pub fn text(bytes: &[u8]) -> String {
    let mut out = String::with_capacity(2 * bytes.len());
    for byte in bytes {
        // Writing to a String cannot fail.
        let _ = write!(out, "{byte:02X}");
    }
    out
}

/// Like `text`, but a lone dash for no bytes at all.
pub fn text_or_dash(bytes: &[u8]) -> String {
    if bytes.is_empty() {
        "-".to_string()
    } else {
        text(bytes)
    }
}

/// Accepts either case; `-` and nothing both mean no bytes.
pub fn bytes(text: &str) -> Option<Vec<u8>> {
    if text == "-" {
        return Some(Vec::new());
    }
    let digits: Option<Vec<u8>> = text.chars().map(|c| c.to_digit(16).map(|d| d as u8)).collect();
    let digits = digits?;
    if digits.len() % 2 != 0 {
        return None;
    }
    Some(digits.chunks(2).map(|pair| pair[0] * 16 + pair[1]).collect())
}

#[cfg(test)]
mod tests {
    use super::*;

    #[test]
    fn both_ways() {
        assert_eq!(text(&[0x0A, 0xFF]), "0AFF");
        assert_eq!(bytes("0aFf"), Some(vec![0x0A, 0xFF]));
        assert_eq!(bytes(""), Some(vec![]));
        assert_eq!(bytes("-"), Some(vec![]));
        assert_eq!(bytes("0"), None);
        assert_eq!(bytes("0G"), None);
        assert_eq!(text_or_dash(&[]), "-");
    }
}
