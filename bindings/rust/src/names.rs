use crate::call;
use crate::refusal::Refusal;
use std::borrow::Cow;
use std::fmt;

/// A file of the names of characters, as Unicode publishes it by the name `UnicodeData.txt`, with its
/// index: the offset of each line that has a name, ordered by name.
///
/// Only [`build`](Names::build) and [`check`](Names::check) make one. So the check is paid for once,
/// and the readings that take it ([`parse_strings_named`](crate::parse_strings_named),
/// [`read_into_named`](crate::read_into_named), [`read_at_named`](crate::read_at_named)) search at
/// once: they find a name exactly if the file has it. Names compare byte for byte, so small letters
/// are others, and a body asks for one of at most 88 bytes.
///
/// ```
/// use stumpgarret::{read_at, read_at_named, Names, Reason};
///
/// // Of Debian's package unicode-data: std::fs::read("/usr/share/unicode/UnicodeData.txt")?
/// let file = "2603;SNOWMAN;So;0;ON;;;;;N;;;;;\n0000;<control>;Cc;0;BN;;;;;N;NULL;;;;\n";
/// let names = Names::build(file.as_bytes())?;
/// assert_eq!(names.index(), [0]);
///
/// let script = r"f'\N{SNOWMAN}{x}'";
/// let (_, answer) = read_at_named(script, 0, &names)?;
/// assert_eq!(answer.text(), "\u{2603}x".as_bytes());
/// assert_eq!(read_at(script, 0).unwrap_err().reason(), &Reason::NameNotHeld);
/// # Ok::<(), stumpgarret::Refusal>(())
/// ```
#[derive(Clone, PartialEq, Eq)]
pub struct Names<'a> {
    file: Cow<'a, [u8]>,
    index: Cow<'a, [u32]>,
}

impl<'a> Names<'a> {
    /// Builds the index of a file, which may be lent (`&[u8]`) or given (`Vec<u8>`). Refused are a file
    /// with a line that is malformed, or with a name twice, and one of 2^32 bytes or more
    /// ([`Reason::TooLittleIndexRoom`](crate::Reason::TooLittleIndexRoom)).
    ///
    /// ```
    /// use stumpgarret::{Names, Reason};
    ///
    /// let refusal = Names::build(&b"2603;SNOWMAN\n"[..]).unwrap_err();
    /// assert_eq!((refusal.number(), refusal.reason()), (60, &Reason::LineMalformed));
    /// ```
    pub fn build(file: impl Into<Cow<'a, [u8]>>) -> Result<Names<'a>, Refusal> {
        let file = file.into();
        // A file that is longer is refused, whatever the room.
        let room = if u32::try_from(file.len()).is_ok() { file.len() / LEAST_LINE } else { 0 };
        let mut index = vec![0; room];
        let answer = call::names_build(&file, &mut index);
        match answer {
            [0, entries, ..] if entries as usize <= room => {
                index.truncate(entries as usize);
                index.shrink_to_fit();
                Ok(Names { file, index: Cow::Owned(index) })
            }
            [0, ..] => Err(Refusal::unknown()),
            _ => Err(Refusal::new(answer)),
        }
    }

    /// Checks an index that was kept, which takes a fraction of the time of building one. It is refused
    /// unless it is the one that [`build`](Names::build) gives of the file, and so is a file that is
    /// refused there.
    ///
    /// ```
    /// use stumpgarret::{Names, Reason};
    ///
    /// let file = b"2603;SNOWMAN;So;0;ON;;;;;N;;;;;\n2604;COMET;So;0;ON;;;;;N;;;;;\n";
    /// let kept = Names::build(&file[..])?.index().to_vec();
    /// assert_eq!(kept, [32, 0]);
    /// assert!(Names::check(&file[..], &kept).is_ok());
    ///
    /// let refusal = Names::check(&file[..], vec![0, 32]).unwrap_err();
    /// assert_eq!((refusal.number(), refusal.reason()), (63, &Reason::WrongIndex));
    /// # Ok::<(), stumpgarret::Refusal>(())
    /// ```
    pub fn check(
        file: impl Into<Cow<'a, [u8]>>,
        index: impl Into<Cow<'a, [u32]>>,
    ) -> Result<Names<'a>, Refusal> {
        let (file, index) = (file.into(), index.into());
        let answer = call::names_check(&file, &index);
        match answer {
            [0, entries, ..] if entries as usize == index.len() => Ok(Names { file, index }),
            [0, ..] => Err(Refusal::unknown()),
            _ => Err(Refusal::new(answer)),
        }
    }

    /// The file as it was lent or given.
    pub fn file(&self) -> &[u8] {
        &self.file
    }

    /// The offset of each line that has a name, ordered by name; to be kept for
    /// [`check`](Names::check).
    pub fn index(&self) -> &[u32] {
        &self.index
    }
}

/// The fewest bytes of a line with a name: four digits, a byte of the name, fourteen `;`, byte 10.
const LEAST_LINE: usize = 20;

impl fmt::Debug for Names<'_> {
    fn fmt(&self, f: &mut fmt::Formatter<'_>) -> fmt::Result {
        let (bytes, entries) = (self.file.len(), self.index.len());
        f.debug_struct("Names").field("bytes", &bytes).field("entries", &entries).finish()
    }
}
