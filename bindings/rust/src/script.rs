//! A script's bytes as Python reads them, or why it does not.
use crate::refusal::{Reason, Refusal};
use std::borrow::Cow;

/// The bytes that the library is given: without a byte order mark, and with byte 10 for CR LF and CR.
/// Nothing is decoded, so a script whose coding line says neither UTF-8 nor ASCII is refused.
pub(crate) fn of_bytes(script: &[u8]) -> Result<Cow<'_, [u8]>, Refusal> {
    let read = with_newlines(script);
    if let Some((name, place)) = coding(&read).filter(|(name, _)| !is_utf8(name)) {
        let name = String::from_utf8_lossy(name).into_owned();
        return Err(Refusal::of_script(Reason::OtherCoding { name }, &read, place));
    }
    without_zero(read)
}

/// The same of text, which is decoded already, whatever its coding line says.
pub(crate) fn of_text(script: &str) -> Result<Cow<'_, [u8]>, Refusal> {
    without_zero(with_newlines(script.as_bytes()))
}

fn without_zero(read: Cow<'_, [u8]>) -> Result<Cow<'_, [u8]>, Refusal> {
    match read.iter().position(|&byte| byte == 0) {
        Some(place) => Err(Refusal::of_script(Reason::ZeroByte, &read, place)),
        None => Ok(read),
    }
}

fn with_newlines(script: &[u8]) -> Cow<'_, [u8]> {
    let script = script.strip_prefix(b"\xef\xbb\xbf").unwrap_or(script);
    if !script.contains(&b'\r') {
        return Cow::Borrowed(script);
    }
    let mut read = Vec::with_capacity(script.len());
    let mut before = 0;
    for &byte in script {
        match byte {
            b'\r' => read.push(b'\n'),
            b'\n' if before == b'\r' => {}
            _ => read.push(byte),
        }
        before = byte;
    }
    Cow::Owned(read)
}

/// What a coding line says and where, by PEP 263: it is one of the first two lines, and a comment or
/// nothing stands before it.
fn coding(script: &[u8]) -> Option<(&[u8], usize)> {
    let first = script.split(|&byte| byte == b'\n').next()?;
    if let found @ Some(_) = coding_in(first) {
        return found;
    }
    let begins = first.iter().find(|byte| !is_blank(byte));
    if !matches!(begins, None | Some(b'#')) {
        return None;
    }
    let behind = script.get(first.len() + 1..)?;
    let (name, place) = coding_in(behind.split(|&byte| byte == b'\n').next()?)?;
    Some((name, first.len() + 1 + place))
}

/// In a line that is a comment: `coding`, a `:` or `=`, blanks, and a name.
fn coding_in(line: &[u8]) -> Option<(&[u8], usize)> {
    const CODING: &[u8] = b"coding";
    if line.iter().find(|byte| !is_blank(byte)) != Some(&b'#') {
        return None;
    }
    (0..line.len()).filter(|&at| line[at..].starts_with(CODING)).find_map(|at| {
        let behind = &line[at + CODING.len()..];
        if !matches!(behind.first(), Some(b':' | b'=')) {
            return None;
        }
        let blanks = behind[1..].iter().take_while(|byte| matches!(byte, b' ' | b'\t')).count();
        let name = &behind[1 + blanks..];
        let length = name.iter().take_while(|&&byte| is_of_a_name(byte)).count();
        (length > 0).then(|| (&name[..length], at + CODING.len() + 1 + blanks))
    })
}

fn is_blank(byte: &u8) -> bool {
    matches!(byte, b' ' | b'\t' | b'\x0c')
}

fn is_of_a_name(byte: u8) -> bool {
    byte.is_ascii_alphanumeric() || matches!(byte, b'-' | b'_' | b'.')
}

/// Whether a coding reads text of ASCII and UTF-8 as they stand.
fn is_utf8(name: &[u8]) -> bool {
    let name = String::from_utf8_lossy(name).to_ascii_lowercase().replace('_', "-");
    name.starts_with("utf-8-") || ["utf-8", "utf8", "u8", "ascii", "us-ascii"].contains(&&*name)
}

#[cfg(test)]
mod tests {
    use super::*;

    fn refused(script: &[u8]) -> Option<(Reason, usize, usize, usize)> {
        let refusal = of_bytes(script).err()?;
        let (place, line, column) = (refusal.place(), refusal.line(), refusal.column());
        Some((refusal.reason().clone(), place, line, column))
    }

    #[test]
    fn a_coding_line_is_one_of_the_first_two_lines() {
        let of = |name: &str, place, line, column| {
            Some((Reason::OtherCoding { name: name.into() }, place, line, column))
        };
        for (script, expected) in [
            ("# coding: utf-7", of("utf-7", 10, 0, 10)),
            ("\u{feff}# -*- coding: cp037 -*-\nf'{x}'", of("cp037", 14, 0, 14)),
            ("#!/usr/bin/python3\r\n#vim:fileencoding=latin-1", of("latin-1", 37, 1, 18)),
            (" \t\x0c\r\t# coding=\t\tbig5", of("big5", 16, 1, 12)),
            ("\n#coding:  coding: utf-7", of("coding", 11, 1, 10)),
            ("# coding coding: coding:utf-7", of("coding", 17, 0, 17)),
            ("x = 1\n# coding: utf-7", None),
            ("\n\n# coding: utf-7", None),
            ("f'{x}' # coding: utf-7", None),
            ("# coding utf-7", None),
            ("# coding:\n# encoded: utf-7", None),
            ("#\n'' # coding: utf-7", None),
            ("", None),
        ] {
            assert_eq!(refused(script.as_bytes()), expected, "{:?}", script);
            assert!(of_text(script).is_ok());
        }
    }

    #[test]
    fn utf8_and_ascii_are_read_as_they_stand() {
        for name in ["utf-8", "UTF_8", "utf8", "utf-8-sig", "U8", "ascii", "US-ASCII", "us_ascii"] {
            assert_eq!(refused(format!("# coding: {}\nf'{{x}}'", name).as_bytes()), None);
        }
        for name in ["utf-7", "utf-16", "utf", "utf-80", "iso-8859-1", "646", "."] {
            assert!(refused(format!("# coding: {}", name).as_bytes()).is_some(), "{}", name);
        }
    }

    #[test]
    fn a_byte_0_is_none_of_python() {
        let of = |place, line, column| Some((Reason::ZeroByte, place, line, column));
        assert_eq!(refused(b"f\0'\0{\0x\0}\0'\0"), of(1, 0, 1));
        assert_eq!(refused("\u{e9}\r\n\u{e9}\0".as_bytes()), of(5, 1, 1));
        assert_eq!(of_text("\0").unwrap_err().reason(), &Reason::ZeroByte);
    }
}
