//! What is timed.

/// A script and a list of literals, six numbers each.
pub struct Case {
    pub script: Vec<u8>,
    pub list: Vec<u32>,
}

pub struct Input {
    pub name: &'static str,
    cases: Vec<Case>,
    /// How often each case is read in one pass.
    times: usize,
}

impl Input {
    pub fn calls(&self) -> impl Iterator<Item = &Case> {
        (0..self.times).flat_map(move |_| &self.cases)
    }

    /// The bytes of all bodies that a pass reads.
    pub fn bytes(&self) -> usize {
        let bodies = self
            .cases
            .iter()
            .flat_map(|case| case.list.chunks(6).map(|literal| literal[3] as usize));
        self.times * bodies.sum::<usize>()
    }
}

const MIB: usize = 1 << 20;

/// A line as bench scripts have it.
const LINE: &str =
    "{rail:<8} {mv / 1000:7.3f} V  step {code:>3d}  {mv - target:+.1f} mV  {status!r}\\n";

const PLAIN: &str = "The quick brown fox jumps over the lazy dog. 0123456789, ";
const FIELDS: &str = "{x}{y!r}{z:>5}{a[0]}{b(c)}";
const UTF8: &str =
    "\u{3a9} = 47 \u{b5}\u{3a9}, \u{394}T \u{2264} 5 \u{b0}C, \u{6e2c}\u{5b9a}\u{5024} ";
const ESCAPES: &str = "\\t\\x41\\u03a9 \\N{DEGREE SIGN}\\n\\101\\\\ ";
const WIDE: &str = "\u{6e2c}\u{5b9a}\u{5024}\u{3a9}\u{b5}\u{b0}\u{1f600}";

pub fn all() -> Vec<Input> {
    vec![
        plain(),
        bench_lines("bench", MIB, 4),
        bench_lines("line", LINE.len(), 20_000),
        repeated("fields", 1, FIELDS, MIB, 4),
        repeated("utf8", 1, UTF8, MIB, 4),
        repeated("escapes", 0, ESCAPES, MIB, 4),
        lists(),
    ]
}

/// Plain text in an f-string.
pub fn plain() -> Input {
    repeated("plain", 1, PLAIN, MIB, 8)
}

/// One f-string of a size each: plain text, text without ASCII, both, bench lines, fields, escapes, doubled braces.
pub fn bodies(size: usize, times: usize) -> Vec<Input> {
    [
        ("plain", PLAIN),
        ("wide", WIDE),
        ("utf8", UTF8),
        ("bench", LINE),
        ("fields", FIELDS),
        ("escapes", ESCAPES),
        ("braces", "{{}}"),
    ]
    .map(|(name, unit)| repeated(name, 1, unit, size, times))
    .into()
}

/// Bench lines up to a size, each line whole.
pub fn bench_lines(name: &'static str, size: usize, times: usize) -> Input {
    repeated(name, 1, LINE, size, times)
}

/// One literal of a kind: a unit, as often as it fits into a size.
fn repeated(name: &'static str, kind: u32, unit: &str, size: usize, times: usize) -> Input {
    let body = unit.repeat(size / unit.len());
    Input { name, cases: vec![side_by_side(&[(kind, &body)])], times }
}

/// Six literals a call.
fn lists() -> Input {
    let case = side_by_side(&[
        (0, "VDD "),
        (1, "{mv / 12.5:.0f} of "),
        (3, "\\d+ "),
        (6, "\u{b5}V\\n"),
        (1, "{rail!r}"),
        (4, "{x=}"),
    ]);
    Input { name: "lists", cases: vec![case], times: 20_000 }
}

/// Up to 100,000 runs of literals that are accepted, from a file as crates/try_readings takes it, each script one piece.
pub fn runs(file: &[u8], mut accepted: impl FnMut(&Case) -> bool) -> Input {
    let number = |at: usize| {
        u32::from_le_bytes([file[at], file[at + 1], file[at + 2], file[at + 3]]) as usize
    };
    let mut at = 4;
    let mut cases = Vec::new();
    for _ in 0..number(0) {
        let list_at = at + 16;
        let piece_at = list_at + 4 * number(at);
        let script_at = piece_at + 8;
        let list = (list_at..piece_at).step_by(4).map(|at| number(at) as u32).collect();
        at = script_at + number(piece_at + 4);
        let case = Case { script: file[script_at..at].to_vec(), list };
        if cases.len() < 100_000 && accepted(&case) {
            cases.push(case);
        }
    }
    Input { name: "library", cases, times: 1 }
}

/// Literals with nothing between them; the script has their bodies.
fn side_by_side(literals: &[(u32, &str)]) -> Case {
    const PREFIX: [u32; 7] = [0, 1, 1, 1, 2, 2, 1];
    let mut case = Case { script: Vec::new(), list: Vec::new() };
    let mut start = 0;
    for &(kind, body) in literals {
        let end = start + PREFIX[kind as usize] + body.len() as u32 + 2;
        case.list.extend([kind, 0, case.script.len() as u32, body.len() as u32, start, end]);
        case.script.extend_from_slice(body.as_bytes());
        start = end;
    }
    case
}
