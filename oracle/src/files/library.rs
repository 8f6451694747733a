//! The calls that lend a file of names, over a pipe to a program that has them: server.c with the
//! library. STUMPGARRET_FILES_SERVER is the command, its words separated by blanks; else it is
//! `files-server` beside this program.

use std::io::{BufReader, Read, Write};
use std::process::{Child, ChildStdin, ChildStdout, Command, Stdio};

use oracle::answer::Numbers;

#[derive(Clone, Copy, Debug, PartialEq)]
pub enum Call {
    Build,
    Check,
    ReadNamed,
    ReadSearched,
    FieldsNamed,
}

/// What a call is lent.
#[derive(Clone, Copy)]
pub struct Lent<'a> {
    pub call: Call,
    pub file: &'a [u8],
    pub index: &'a [u32],
    pub script: &'a [u8],
    pub list: &'a [u32],
    pub words: usize,
    pub text: usize,
}

/// The numbers answered, and both buffers.
#[derive(Debug, PartialEq)]
pub struct Answer {
    pub numbers: Numbers,
    pub words: Vec<u32>,
    pub text: Vec<u8>,
}

pub struct Library {
    child: Child,
    requests: ChildStdin,
    answers: BufReader<ChildStdout>,
    /// The file and the index of the request before.
    before: Option<(Vec<u8>, Vec<u32>)>,
}

impl Library {
    pub fn start() -> Library {
        let mut child = command()
            .stdin(Stdio::piped())
            .stdout(Stdio::piped())
            .spawn()
            .expect("the server starts");
        let requests = child.stdin.take().expect("it is piped");
        let answers = BufReader::new(child.stdout.take().expect("it is piped"));
        Library { child, requests, answers, before: None }
    }

    pub fn call(&mut self, lent: &Lent) -> Answer {
        let request = self.request(lent);
        let mut bytes = vec![0; 48 + 4 * lent.words + lent.text];
        let sent = self.requests.write_all(&request);
        if let Err(error) = sent.and_then(|()| self.answers.read_exact(&mut bytes)) {
            panic!("the server ended: {error}, {:?}", self.child.wait())
        }
        let word = |at: usize| u32::from_le_bytes(bytes[at..at + 4].try_into().expect("4 bytes"));
        Answer {
            numbers: std::array::from_fn(|at| word(4 * at)),
            words: (0..lent.words).map(|at| word(48 + 4 * at)).collect(),
            text: bytes[48 + 4 * lent.words..].to_vec(),
        }
    }

    /// The file and the index go over only if they are others than before.
    fn request(&mut self, lent: &Lent) -> Vec<u8> {
        let size = |size: usize| u32::try_from(size).expect("sizes fit 32 bits");
        let mut sizes = [lent.file.len(), lent.index.len()].map(size);
        let (mut file, mut index) = (lent.file, lent.index);
        if let Some((file_before, index_before)) = &self.before {
            if file_before == file {
                (file, sizes[0]) = (&[], u32::MAX);
            }
            if index_before == index {
                (index, sizes[1]) = (&[], u32::MAX);
            }
        }
        let others = [lent.script.len(), lent.list.len(), lent.words, lent.text].map(size);
        let numbers = [lent.call as u32].into_iter().chain(sizes).chain(others);
        let mut request: Vec<u8> = numbers.flat_map(u32::to_le_bytes).collect();
        request.extend(file);
        request.extend(index.iter().flat_map(|entry| entry.to_le_bytes()));
        request.extend(lent.script);
        request.extend(lent.list.iter().flat_map(|number| number.to_le_bytes()));
        self.before = Some((lent.file.to_vec(), lent.index.to_vec()));
        request
    }
}

fn command() -> Command {
    let Ok(given) = std::env::var("STUMPGARRET_FILES_SERVER") else {
        let program = std::env::current_exe().expect("a program has a place");
        return Command::new(program.with_file_name("files-server"));
    };
    let mut words = given.split_whitespace();
    let mut command = Command::new(words.next().expect("STUMPGARRET_FILES_SERVER is a command"));
    command.args(words);
    command
}
