//! What a file of names is, its index, and names looked up, written from the request alone: a line, ended
//! by byte 10, has 15 fields parted by `;`, the first a code of four to six hex digits, the second the
//! name, which is none if it begins with `<`; the index has the offset of each line with a name,
//! ordered by name.

use std::collections::HashSet;

pub const MALFORMED: u32 = 60;
pub const TWICE: u32 = 61;
pub const NO_ROOM: u32 = 62;
pub const WRONG_INDEX: u32 = 63;

const FIELDS: usize = 15;

#[derive(Clone, Debug)]
pub struct Named {
    pub name: Vec<u8>,
    pub code: char,
    pub at: u32,
}

/// The names of a file, ordered, or its number.
pub fn names(file: &[u8]) -> Result<Vec<Named>, u32> {
    let mut names = Vec::new();
    let mut at = 0;
    for line in file.split_inclusive(|&byte| byte == b'\n') {
        let line_at = at as u32;
        at += line.len();
        let line = line.strip_suffix(b"\n").ok_or(MALFORMED)?;
        if let Some((name, code)) = line_name(line).ok_or(MALFORMED)? {
            names.push(Named { name, code, at: line_at });
        }
    }
    let distinct: HashSet<&[u8]> = names.iter().map(|named| named.name.as_slice()).collect();
    if distinct.len() < names.len() {
        return Err(TWICE);
    }
    names.sort_by(|one, other| one.name.cmp(&other.name));
    Ok(names)
}

/// The name and the code of a line, or that it has no name; nothing if it is malformed.
fn line_name(line: &[u8]) -> Option<Option<(Vec<u8>, char)>> {
    let fields: Vec<&[u8]> = line.split(|&byte| byte == b';').collect();
    if fields.len() != FIELDS || fields[1].is_empty() || !(4..=6).contains(&fields[0].len()) {
        return None;
    }
    let digits = std::str::from_utf8(fields[0]).ok()?;
    if !digits.bytes().all(|digit| digit.is_ascii_hexdigit()) {
        return None;
    }
    if fields[1][0] == b'<' {
        return Some(None);
    }
    let code = u32::from_str_radix(digits, 16).expect("digits of 24 bits");
    Some(Some((fields[1].to_vec(), char::from_u32(code)?)))
}

pub fn index(names: &[Named]) -> Vec<u32> {
    names.iter().map(|named| named.at).collect()
}

/// The index in so much room, or a number.
pub fn build(names: &Result<Vec<Named>, u32>, room: usize) -> Result<Vec<u32>, u32> {
    match names {
        Err(number) => Err(*number),
        Ok(names) if names.len() > room => Err(NO_ROOM),
        Ok(names) => Ok(index(names)),
    }
}

/// How many names there are, or a number.
pub fn check(names: &Result<Vec<Named>, u32>, lent: &[u32]) -> Result<usize, u32> {
    match names {
        Err(number) => Err(*number),
        Ok(names) if index(names) != lent => Err(WRONG_INDEX),
        Ok(names) => Ok(names.len()),
    }
}

/// The character of a name.
pub fn lookup(names: &[Named], name: &[u8]) -> Option<char> {
    names.iter().find(|named| named.name == name).map(|named| named.code)
}

/// The character that a search by halves gives, whatever the file and the index are.
pub fn search(file: &[u8], index: &[u32], name: &[u8]) -> Option<char> {
    let (mut low, mut high) = (0, index.len());
    while low < high {
        let middle = low + (high - low) / 2;
        if name_at(file, index[middle]) < name {
            low = middle + 1;
        } else {
            high = middle;
        }
    }
    let at = *index.get(low)?;
    if name_at(file, at) != name {
        return None;
    }
    let mut code = 0_u32;
    for &digit in up_to_parting(file, at as usize) {
        let digit = char::from(digit).to_digit(16)?;
        if code >= 1 << 20 {
            return None;
        }
        code = 16 * code + digit;
    }
    char::from_u32(code)
}

/// The name in the line at an offset, whatever stands there.
pub fn name_at(file: &[u8], at: u32) -> &[u8] {
    let at = at as usize;
    let parted = |place: &usize| file.get(*place) == Some(&b';');
    let before = [at + 4, at + 5].into_iter().find(parted).unwrap_or(at + 6);
    up_to_parting(file, before + 1)
}

fn up_to_parting(file: &[u8], from: usize) -> &[u8] {
    let rest = file.get(from..).unwrap_or(&[]);
    let length = rest.iter().position(|&byte| byte == b';').unwrap_or(rest.len());
    &rest[..length]
}
