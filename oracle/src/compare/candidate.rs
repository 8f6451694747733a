//! The reading under test, over a pipe to a program that has it: server.c with the library.
//!
//! STUMPGARRET_SERVER is the command, its words separated by blanks, as with an emulator in
//! front; else it is `server` beside this program. It is started once.

use std::cell::RefCell;
use std::io::{BufReader, Read, Write};
use std::process::{Child, ChildStdin, ChildStdout, Command, Stdio};

use inputs::{FILL_BYTE, FILL_WORD};
use oracle::answer::Numbers;

/// Requests that go together, and their answers, are less than a pipe holds, so that neither
/// end waits for the other to read.
const PIPE: usize = 1 << 15;

/// What is asked for, and lent for it.
#[derive(Clone, Copy, Debug)]
pub enum Room {
    Records {
        words: usize,
        text: usize,
    },
    /// The rows of a list's fields.
    Rows(usize),
    /// Those of a whole script.
    Fields(usize),
}

impl Room {
    pub fn words(self) -> usize {
        let (Room::Records { words, .. } | Room::Rows(words) | Room::Fields(words)) = self;
        words
    }

    pub fn text(self) -> usize {
        match self {
            Room::Records { text, .. } => text,
            _ => 0,
        }
    }
}

/// The numbers answered, and both buffers. What stands around them is watched by server.c.
#[derive(PartialEq)]
pub struct Answer {
    pub numbers: Numbers,
    pub words: Vec<u32>,
    pub text: Vec<u8>,
}

struct Server {
    // Kept, so that its end can be told.
    child: Child,
    requests: ChildStdin,
    answers: BufReader<ChildStdout>,
    bytes: Vec<u8>,
}

thread_local! {
    static SERVER: RefCell<Option<Server>> = const { RefCell::new(None) };
}

impl Server {
    fn start() -> Server {
        let mut child = Server::command()
            .stdin(Stdio::piped())
            .stdout(Stdio::piped())
            .spawn()
            .expect("the server starts");
        let requests = child.stdin.take().expect("it is piped");
        let answers = BufReader::with_capacity(1 << 20, child.stdout.take().expect("it is piped"));
        Server { child, requests, answers, bytes: Vec::new() }
    }

    fn command() -> Command {
        let Ok(given) = std::env::var("STUMPGARRET_SERVER") else {
            let program = std::env::current_exe().expect("a program has a place");
            return Command::new(program.with_file_name("server"));
        };
        let mut words = given.split_whitespace();
        let mut command = Command::new(words.next().expect("STUMPGARRET_SERVER is a command"));
        command.args(words);
        command
    }

    /// Puts a request behind those that are to go, with both buffers filled.
    fn ask(&mut self, script: &[u8], list: &[u32], room: Room) {
        let size = |size: usize| u32::try_from(size).expect("sizes fit 32 bits");
        let (words, text) = (room.words(), room.text());
        let (first, last) = match room {
            Room::Records { .. } => (size(list.len()), size(text)),
            Room::Rows(_) => (size(list.len()), u32::MAX),
            Room::Fields(_) => (u32::MAX - 1, 0),
        };
        for size in [first, size(script.len()), size(words), last] {
            self.bytes.extend(size.to_le_bytes());
        }
        self.bytes.extend(list.iter().flat_map(|word| word.to_le_bytes()));
        self.bytes.extend(script);
        self.bytes.extend((0..words).flat_map(|_| FILL_WORD.to_le_bytes()));
        self.bytes.extend((0..text).map(|_| FILL_BYTE));
    }

    fn send(&mut self) {
        if let Err(error) = self.requests.write_all(&self.bytes) {
            self.ended(error);
        }
        self.bytes.clear();
    }

    fn answer(&mut self, room: Room) -> Answer {
        let words = room.words();
        let mut bytes = vec![0; size_of_answer(room)];
        if let Err(error) = self.answers.read_exact(&mut bytes) {
            self.ended(error);
        }
        let word = |at: usize| u32::from_le_bytes(bytes[at..at + 4].try_into().expect("4 bytes"));
        Answer {
            numbers: std::array::from_fn(|at| word(4 * at)),
            words: (0..words).map(|at| word(48 + 4 * at)).collect(),
            text: bytes[48 + 4 * words..].to_vec(),
        }
    }

    fn ended(&mut self, error: std::io::Error) -> ! {
        panic!("the server ended: {error}, {:?}", self.child.wait())
    }

    fn read(&mut self, script: &[u8], list: &[u32], rooms: &[Room]) -> Vec<Answer> {
        let request = 16 + 4 * list.len() + script.len();
        let together =
            rooms.iter().map(|room| request + size_of_answer(*room)).sum::<usize>() < PIPE;
        let rooms_at_once = if together { rooms.len() } else { 1 };
        let mut answers = Vec::with_capacity(rooms.len());
        for rooms in rooms.chunks(rooms_at_once) {
            rooms.iter().for_each(|room| self.ask(script, list, *room));
            self.send();
            answers.extend(rooms.iter().map(|room| self.answer(*room)));
        }
        answers
    }
}

/// Twelve numbers, the words and the text: as many bytes as both buffers take in a request.
fn size_of_answer(room: Room) -> usize {
    48 + 4 * room.words() + room.text()
}

/// What is answered with each room. A whole script has no list.
pub fn read(script: &[u8], list: &[u32], rooms: &[Room]) -> Vec<Answer> {
    SERVER.with_borrow_mut(|server| {
        server.get_or_insert_with(Server::start).read(script, list, rooms)
    })
}
