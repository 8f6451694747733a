use crate::answer::{Answer, ConversionFlag, Record, Records, Sort};
use crate::call;
use crate::refusal::Refusal;
use crate::run::literals_at;
use crate::{Literal, StringKind};

/// The parts of an f-string, owned, to be changed and written back.
///
/// ```
/// use stumpgarret::{read_at, Part, Template};
///
/// let (_, answer) = read_at("print(f'{mv / 12.5:.0f} mV')", 6)?;
/// let mut template = Template::of(&answer).expect("an f-string");
/// template.edit(|field| {
///     if field.spec == Some(vec![Part::from(".0f")]) {
///         field.spec = Some(vec![Part::from(".2f")]);
///     }
/// });
/// assert_eq!(template.write()?, "{mv / 12.5:.2f} mV");
/// assert_eq!(template.literal()?.as_deref(), Some("f'{mv / 12.5:.2f} mV'"));
/// # Ok::<(), stumpgarret::Refusal>(())
/// ```
#[derive(Clone, Debug, Default, PartialEq, Eq, Hash)]
pub struct Template {
    pub parts: Vec<Part>,
}

/// A part of a [`Template`], or of a field's spec.
#[derive(Clone, Debug, PartialEq, Eq, Hash)]
pub enum Part {
    Text(String),
    Field(TemplateField),
}

impl From<&str> for Part {
    fn from(text: &str) -> Part {
        Part::Text(text.to_string())
    }
}

/// A field of a [`Template`].
#[derive(Clone, Debug, PartialEq, Eq, Hash)]
pub struct TemplateField {
    pub expression: String,
    pub conversion: ConversionFlag,
    /// The parts of its format spec, if it has a `:`.
    pub spec: Option<Vec<Part>>,
}

/// The quotes that a literal may have, in the order in which they are tried.
const QUOTES: [&str; 4] = ["'", "\"", "'''", "\"\"\""];

/// Bytes of the body that are enough for each byte of text and for each record.
const BODY_ROOM: usize = 4;

impl Template {
    /// What a run of literals with an f-string holds; nothing of any other run. A self-documenting
    /// field is a text and a field, as it reads.
    pub fn of(answer: &Answer<'_>) -> Option<Template> {
        (answer.sort() == Sort::Joined).then(|| Template { parts: owned(answer.records()) })
    }

    /// Changes every field in order, those within specs after the field that they stand in.
    pub fn edit(&mut self, mut change: impl FnMut(&mut TemplateField)) {
        edit(&mut self.parts, &mut change);
    }

    /// The body of an f-string that reads so, in one fixed spelling: reading it gives the same texts,
    /// expressions, conversions and specs, once empty texts are dropped and touching ones joined. Line
    /// ends and quotes stand as they are.
    ///
    /// [`Reason::NotReadBack`](crate::Reason::NotReadBack) exactly if the spelling would be read
    /// otherwise.
    pub fn write(&self) -> Result<String, Refusal> {
        let flat = Flat::of(&self.parts).ok_or_else(Refusal::not_read_back)?;
        let (count, size) = (flat.words.len() / call::RECORD, flat.text.len());
        let reading = [0, 1, 0, 0, 0, count as u32, size as u32, 0, 0, 0, 0, 0];
        let mut body = vec![0; BODY_ROOM * (size + count)];
        let answer = call::write(&flat.words, flat.text.as_bytes(), &reading, &mut body);
        if answer[0] != 0 {
            return Err(Refusal::new(answer));
        }
        body.truncate(answer[1] as usize);
        String::from_utf8(body).map_err(|_| Refusal::unknown())
    }

    /// A whole f-string literal with this body, in the first quotes that fit: `'`, `"`, and then three
    /// of them. Nothing if none does: a body may have quotes of both kinds, and with a carriage return
    /// or a NUL none fits, since Python reads the one as a line end and refuses the other.
    pub fn literal(&self) -> Result<Option<String>, Refusal> {
        let body = self.write()?;
        if body.contains(|c| matches!(c, '\r' | '\0')) {
            return Ok(None);
        }
        Ok(QUOTES.iter().find_map(|quotes| quoted(quotes, &body)))
    }
}

/// The body as one literal in these quotes, if it is one.
fn quoted(quotes: &str, body: &str) -> Option<String> {
    let script = format!("f{quotes}{body}{quotes}");
    let whole = Literal::within(StringKind::FString, quotes.len() == 3, 0..script.len());
    let found = literals_at(&script, 0).ok()?.literals;
    (found == [whole]).then_some(script)
}

fn owned(records: Records<'_>) -> Vec<Part> {
    let part = |record| match record {
        Record::Literal { text, .. } => Some(Part::from(text)),
        Record::Field(field) => Some(Part::Field(TemplateField {
            expression: field.expression.to_string(),
            conversion: field.conversion,
            spec: field.spec.map(|spec| owned(spec.parts())),
        })),
        Record::Bytes { .. } => None,
    };
    records.filter_map(part).collect()
}

fn edit(parts: &mut [Part], change: &mut impl FnMut(&mut TemplateField)) {
    for part in parts {
        if let Part::Field(field) = part {
            change(field);
            edit(field.spec.as_deref_mut().unwrap_or(&mut []), change);
        }
    }
}

/// Records and their text, with no ranges, places and u marks.
#[derive(Default)]
struct Flat {
    words: Vec<u32>,
    text: String,
}

impl Flat {
    /// Nothing, if there are more parts or bytes than 32 bits count.
    fn of(parts: &[Part]) -> Option<Flat> {
        let mut flat = Flat::default();
        flat.put_all(parts)?;
        let most = (flat.words.len() / call::RECORD).max(flat.text.len());
        u32::try_from(most).is_ok().then_some(flat)
    }

    fn put_all(&mut self, parts: &[Part]) -> Option<()> {
        parts.iter().try_for_each(|part| match part {
            Part::Text(text) => self.put(1, text, 0, 0),
            Part::Field(field) => {
                let conversion = field.conversion.to_char().map_or(0, u32::from);
                self.put(2, &field.expression, conversion, field.spec.iter().len())?;
                field.spec.iter().try_for_each(|spec| {
                    self.put(3, "", 0, spec.len())?;
                    self.put_all(spec)
                })
            }
        })
    }

    fn put(&mut self, kind: u32, text: &str, conversion: u32, parts: usize) -> Option<()> {
        let [offset, length, parts] =
            [self.text.len(), text.len(), parts].map(|number| u32::try_from(number).ok());
        self.words.extend([kind, offset?, length?, 0, 0, conversion, parts?, 0]);
        self.text.push_str(text);
        Some(())
    }
}
