//! Random files of names, indexes, and literals with names that are there, or nearly.

use inputs::{Case, Random};

use crate::model::{self, Named};

/// Those that other inputs ask for, and one that is not ASCII.
const HELD: &[&[u8]] = &[b"DEGREE SIGN", b"INFINITY", b"X", b"\xce\xa9"];
const NAMES: &[&[u8]] = &[
    b"A", b"B", b"AB", b"ABC", b"A B", b"B A", b"a", b"Z", b"A\x01", b"A\xff", b"\xff", b"\x00",
    b"{", b"A}", b"'", b"\\", b" ", b"0041",
];
const NAMELESS: &[&[u8]] = &[b"<control>", b"<", b"<A", b"<X, First>", b"<<A>"];
const CODES: &[&[u8]] = &[
    b"0041", b"00b0", b"221E", b"0000", b"D7FF", b"E000", b"ffff", b"1F600", b"00Fe0", b"10FFFF",
    b"000041", b"00005a",
];
const BAD_CODES: &[&[u8]] = &[
    b"D800", b"DFFF", b"110000", b"FFFFFF", b"041", b"0000041", b"00g1", b"", b" 041", b"+041",
    b"0x41",
];
const FREE: &[&[u8]] = &[b"", b"", b"", b"Lu", b"0", b"<x>", b"\xff", b"\r", b"A"];
const PIECES: &[&str] = &[
    "a", " ", "\u{e9}", "\\n", "{x}", "{{", "}}", "{x:", "}", "{x!r:>", "{y}", "\n", "\\x41",
    "\\N", "\\N{", "\\x4", "{", "=", "\\", "\\N{A", "{y:{z}",
];
const KINDS: &[u32] = &[0, 0, 0, 1, 1, 1, 4, 6, 3];

/// A file: sound for the most part, of a few lines as a rule, now and then of many.
pub fn file(random: &mut Random) -> Vec<u8> {
    let mut file = Vec::new();
    if random.once_in(200) {
        many_lines(random, &mut file);
    } else {
        let most = if random.once_in(10) { 60 } else { 8 };
        let spoilt = random.once_in(4);
        for _ in 0..random.below(most) {
            line(random, spoilt, &mut file);
        }
    }
    if random.once_in(3) {
        (0..1 + random.below(2)).for_each(|_| damage(random, &mut file));
    }
    file
}

/// More names than are looked through at once, in no order, one of them twice as often as not.
fn many_lines(random: &mut Random, file: &mut Vec<u8>) {
    let count = 4_090 + random.below(3_000);
    let step = 1 + 2 * random.below(2_000);
    let mut push = |code: &[u8], at: usize| {
        let name = format!("NAME {}", (at * step) % 16_384);
        push_line(code, name.as_bytes(), &[b"".as_slice(); 13], file);
    };
    (0..count).for_each(|at| push(b"0041", at));
    if random.once_in(2) {
        push(b"0042", random.below(count));
    }
}

fn line(random: &mut Random, spoilt: bool, file: &mut Vec<u8>) {
    let spoils = |random: &mut Random| spoilt && random.once_in(8);
    let codes = if spoils(random) { BAD_CODES } else { CODES };
    let code = random.pick(codes);
    let name = match random.below(12) {
        _ if spoils(random) => Vec::new(),
        0 | 1 => random.pick(NAMELESS).to_vec(),
        2 => vec![b'A' + random.below(2) as u8; 86 + random.below(5)],
        3 => random.pick(NAMES).to_vec(),
        4 => random.pick(HELD).to_vec(),
        _ => (0..1 + random.below(4)).map(|_| b"ABC "[random.below(4)]).collect(),
    };
    let count = if spoils(random) { random.below(17) } else { 13 };
    let fields: Vec<&[u8]> = (0..count).map(|_| random.pick(FREE)).collect();
    push_line(code, &name, &fields, file);
}

fn push_line(code: &[u8], name: &[u8], fields: &[&[u8]], file: &mut Vec<u8>) {
    file.extend(code);
    for field in [name].iter().chain(fields) {
        file.push(b';');
        file.extend(*field);
    }
    file.push(b'\n');
}

fn damage(random: &mut Random, bytes: &mut Vec<u8>) {
    let at = random.below(bytes.len() + 1);
    let other = [b';', b'\n', b'<', b'0', b'A', random.next() as u8][random.below(6)];
    match random.below(5) {
        0 if at < bytes.len() => drop(bytes.remove(at)),
        1 if at < bytes.len() => bytes[at] = other,
        2 if random.once_in(4) => bytes.truncate(at),
        3 => {
            let upto = (at + random.below(40)).min(bytes.len());
            let again = bytes[at..upto].to_vec();
            bytes.splice(at..at, again);
        }
        _ => bytes.insert(at, other),
    }
}

/// An index that may be wrong in one place, or altogether.
pub fn index(random: &mut Random, file: &[u8], right: &[u32]) -> Vec<u32> {
    let mut index = right.to_vec();
    let at = random.below(index.len().max(1));
    let there = at < index.len();
    match random.below(12) {
        0 if there => drop(index.remove(at)),
        1 if there => index.insert(at, index[at]),
        2 if there => index[at] = index[at].wrapping_add(1),
        3 if there => index[at] = index[at].wrapping_sub(1),
        4 if there => index.swap(at, right.len() - 1),
        5 if there => index.swap(at, (at + 1) % right.len()),
        6 if there => index[at] = right[random.below(right.len())],
        7 => index.push(offset(random, file)),
        8 => index.reverse(),
        9 => index.clear(),
        10 => index.sort_unstable(),
        _ => index = (0..random.below(12)).map(|_| offset(random, file)).collect(),
    }
    index
}

/// Where a line begins, anywhere in the file, near its end, or far behind it.
fn offset(random: &mut Random, file: &[u8]) -> u32 {
    let lines: Vec<usize> =
        (0..file.len()).filter(|&at| at == 0 || file[at - 1] == b'\n').collect();
    match random.below(8) {
        0 => u32::MAX - random.below(9) as u32,
        1 => (file.len() + random.below(9)) as u32,
        2 => file.len().saturating_sub(random.below(9)) as u32,
        3 | 4 => random.below(file.len() + 1) as u32,
        _ if lines.is_empty() => 0,
        _ => lines[random.below(lines.len())] as u32,
    }
}

/// A list of literals with names; now and then any other.
pub fn case(random: &mut Random, file: &[u8], names: &[Named], index: &[u32]) -> Case {
    if random.once_in(4) {
        return inputs::random(random);
    }
    let mut case = Case::default();
    for _ in 0..1 + random.below(3) {
        let kind = if random.once_in(30) { 2 } else { KINDS[random.below(KINDS.len())] };
        let body = body(random, file, names, index);
        let start = case.last_end() + random.below(3) as u32;
        case.add(kind, random.below(2) as u32, &body, start);
    }
    case
}

/// A whole script: f-strings with names, or any other.
pub fn script(random: &mut Random, file: &[u8], names: &[Named], index: &[u32]) -> Vec<u8> {
    if random.once_in(300) {
        return vec![b' '; oracle::listing::MAX_SCRIPT_BYTES + random.below(2)];
    }
    if random.once_in(4) {
        return inputs::random_script(random).script;
    }
    let mut script = Vec::new();
    for _ in 0..random.below(4) {
        script.extend(random.pick(&["f'", "f\"", "rf'", "'", "f'''"]).bytes());
        script.extend(body(random, file, names, index));
        script.extend(random.pick(&["'", "'\n", "\"", "'''\n"]).bytes());
    }
    script
}

fn body(random: &mut Random, file: &[u8], names: &[Named], index: &[u32]) -> Vec<u8> {
    let mut body = Vec::new();
    for _ in 0..1 + random.below(4) {
        if random.once_in(3) {
            body.extend(random.pick(PIECES).bytes());
        } else {
            body.extend(b"\\N{");
            body.extend(asked(random, file, names, index));
            body.push(b'}');
        }
    }
    body
}

/// A name to ask for.
fn asked(random: &mut Random, file: &[u8], names: &[Named], index: &[u32]) -> Vec<u8> {
    let mut name = match random.below(12) {
        0 => random.pick(NAMES).to_vec(),
        1 => random.pick(NAMELESS).to_vec(),
        2 => vec![b'A'; 86 + random.below(5)],
        3 => Vec::new(),
        4..=6 if !index.is_empty() => {
            model::name_at(file, index[random.below(index.len())]).to_vec()
        }
        _ if names.is_empty() => b"A".to_vec(),
        _ => names[random.below(names.len())].name.clone(),
    };
    if random.once_in(6) {
        match random.below(5) {
            0 => drop(name.pop()),
            1 => name.push(b"A ;}\x01"[random.below(5)]),
            2 => name.make_ascii_lowercase(),
            3 => name.extend(b";Lu"),
            _ => name.insert(0, b"A< ;"[random.below(4)]),
        }
    }
    name
}
