// The library as the twin sees it: its C functions, called in a process of their own, in guarded room.
// That process is caller.c with the static library, both x86-64.

use crate::guards::{guarded, opened, BESIDE_BYTES, BESIDE_WORDS};
use crate::kit;
use crate::terms::Settings;
use std::io::{BufReader, BufWriter, Read, Result, Write};
use std::process::{Child, ChildStdin, ChildStdout};

/// The commands of caller.c.
const PUT: u32 = 1;
const GET: u32 = 2;
const CALL: u32 = 3;
const SEND: u32 = 4;

/// The functions, as caller.c numbers them.
#[derive(Clone, Copy)]
enum Function {
    Age,
    Repetition,
    Read,
    Setting,
    Write,
    Part,
    PlanList,
    Plan,
    Has,
    Deepest,
}

/// Where in the caller's memory an input is laid, and where lent room is.
const INPUT: usize = 0;
const ROOM: usize = 1 << 19;
const SECOND_ROOM: usize = 3 << 18;

pub fn words_of(bytes: &[u8]) -> Vec<u32> {
    bytes.chunks_exact(4).map(|b| u32::from_le_bytes([b[0], b[1], b[2], b[3]])).collect()
}

pub fn bytes_of(words: &[u32]) -> Vec<u8> {
    words.iter().flat_map(|word| word.to_le_bytes()).collect()
}

/// What a call gave and left: its answer, the lent room, and whether all else was let alone.
#[derive(Clone, Debug, PartialEq, Eq)]
pub struct Left {
    pub answer: u64,
    pub room: Vec<u8>,
    pub guards_stand: bool,
    pub input_stands: bool,
}

/// What planning over words gave and left: as `Left`, with two lent rooms.
#[derive(Clone, Debug, PartialEq, Eq)]
pub struct LeftTwo {
    pub answer: u64,
    pub cells: Vec<u32>,
    pub results: Vec<u32>,
    pub guards_stand: bool,
    pub input_stands: bool,
}

pub struct Library {
    process: Child,
    commands: BufWriter<ChildStdin>,
    answers: BufReader<ChildStdout>,
}

impl Library {
    /// Links the caller with the library and starts it.
    pub fn start() -> Result<Library> {
        let folder = kit::Folder::new()?;
        let mut process = kit::caller(&folder)?;
        let missing = || std::io::Error::other("the caller has no pipe");
        let commands = BufWriter::with_capacity(1 << 16, process.stdin.take().ok_or_else(missing)?);
        let answers = BufReader::with_capacity(1 << 16, process.stdout.take().ok_or_else(missing)?);
        let mut library = Library { process, commands, answers };
        // Once it has answered it is loaded, and the folder may go.
        library.get(INPUT, 1)?;
        library.send()?;
        library.memory(1)?;
        Ok(library)
    }

    fn command(&mut self, words: &[u32]) -> Result<()> {
        words.iter().try_for_each(|word| self.commands.write_all(&word.to_le_bytes()))
    }

    fn put(&mut self, at: usize, bytes: &[u8]) -> Result<()> {
        self.command(&[PUT, at as u32, bytes.len() as u32])?;
        self.commands.write_all(bytes)
    }

    fn get(&mut self, at: usize, bytes: usize) -> Result<()> {
        self.command(&[GET, at as u32, bytes as u32])
    }

    fn call(&mut self, function: Function, arguments: &[u32]) -> Result<()> {
        let mut words = [0; 15];
        words[..2].copy_from_slice(&[CALL, function as u32]);
        words[2..2 + arguments.len()].copy_from_slice(arguments);
        self.command(&words)
    }

    /// Has all answers sent that the commands so far brought about.
    fn send(&mut self) -> Result<()> {
        self.command(&[SEND])?;
        self.commands.flush()
    }

    fn answer(&mut self) -> Result<u64> {
        let mut bytes = [0; 8];
        self.answers.read_exact(&mut bytes)?;
        Ok(u64::from_le_bytes(bytes))
    }

    fn answers(&mut self, count: usize) -> Result<Vec<u64>> {
        (0..count).map(|_| self.answer()).collect()
    }

    fn memory(&mut self, bytes: usize) -> Result<Vec<u8>> {
        let mut memory = vec![0; bytes];
        self.answers.read_exact(&mut memory)?;
        Ok(memory)
    }

    /// The age of the thirteen words.
    pub fn age(&mut self, words: &[u32; 13]) -> Result<u32> {
        self.call(Function::Age, words)?;
        self.send()?;
        Ok(self.answer()? as u32)
    }

    /// The repetition of the ten words.
    pub fn repetition(&mut self, words: &[u32; 10]) -> Result<u32> {
        self.call(Function::Repetition, words)?;
        self.send()?;
        Ok(self.answer()? as u32)
    }

    /// Reads a book into a list that holds the given words before; then asks it for settings and parts.
    pub fn read(&mut self, book: &[u8], list: &[u32], asked: &Asked) -> Result<(Left, Given)> {
        let (input, lent) = (guarded(book, BESIDE_BYTES), guarded(&bytes_of(list), BESIDE_WORDS));
        let (at, bytes) = ((INPUT + BESIDE_BYTES) as u32, book.len() as u32);
        self.put(INPUT, &input)?;
        self.put(ROOM, &lent)?;
        self.call(Function::Read, &[at, bytes, (ROOM + BESIDE_WORDS) as u32, list.len() as u32])?;
        self.get(ROOM, lent.len())?;
        for &word in &asked.settings {
            self.call(Function::Setting, &[at, bytes, word])?;
        }
        for &signal in &asked.parts {
            self.call(Function::Part, &[at, bytes, signal])?;
        }
        self.get(INPUT, input.len())?;
        self.send()?;
        let answer = self.answer()?;
        let lent = self.memory(lent.len())?;
        let settings = self.answers(asked.settings.len())?.into_iter().map(|answer| answer as u32).collect();
        let parts = self.answers(asked.parts.len())?;
        let input_stands = self.memory(input.len())? == input;
        let (room, guards_stand) = opened(&lent, BESIDE_WORDS);
        Ok((Left { answer, room: room.to_vec(), guards_stand, input_stands }, Given { settings, parts }))
    }

    /// Writes a book of the settings and the list into room that holds the given bytes before.
    pub fn write(&mut self, settings: &Settings, list: &[u32], room: &[u8]) -> Result<Left> {
        let (input, lent) = (guarded(&bytes_of(list), BESIDE_WORDS), guarded(room, BESIDE_BYTES));
        let mut arguments = settings.words().to_vec();
        arguments.extend([(INPUT + BESIDE_WORDS) as u32, list.len() as u32]);
        arguments.extend([(ROOM + BESIDE_BYTES) as u32, room.len() as u32]);
        self.left_by(Function::Write, &arguments, &input, &lent)
    }

    /// Calls a function that is lent an input to read and bytes to fill, both with their guards.
    fn left_by(&mut self, function: Function, arguments: &[u32], input: &[u8], lent: &[u8]) -> Result<Left> {
        self.put(INPUT, input)?;
        self.put(ROOM, lent)?;
        self.call(function, arguments)?;
        self.get(ROOM, lent.len())?;
        self.get(INPUT, input.len())?;
        self.send()?;
        let answer = self.answer()?;
        let lent = self.memory(lent.len())?;
        let input_stands = self.memory(input.len())? == input;
        let (room, guards_stand) = opened(&lent, BESIDE_BYTES);
        Ok(Left { answer, room: room.to_vec(), guards_stand, input_stands })
    }

    fn has(&mut self, function: Function) -> Result<bool> {
        self.call(Function::Has, &[function as u32])?;
        self.send()?;
        Ok(self.answer()? == 1)
    }

    pub fn has_plan_list(&mut self) -> Result<bool> {
        self.has(Function::PlanList)
    }

    pub fn has_plan(&mut self) -> Result<bool> {
        self.has(Function::Plan)
    }

    /// Plans a list into a table and results that hold the given words before.
    pub fn plan_list(&mut self, settings: &Settings, list: &[u32], cells: &[u32], results: &[u32]) -> Result<LeftTwo> {
        let rooms = [(INPUT, list), (ROOM, cells), (SECOND_ROOM, results)];
        let lent = rooms.map(|(_, words)| guarded(&bytes_of(words), BESIDE_WORDS));
        let mut arguments = settings.words().to_vec();
        for ((at, words), whole) in rooms.iter().zip(&lent) {
            arguments.extend([(at + BESIDE_WORDS) as u32, words.len() as u32]);
            self.put(*at, whole)?;
        }
        self.call(Function::PlanList, &arguments)?;
        for ((at, _), whole) in rooms.iter().zip(&lent) {
            self.get(*at, whole.len())?;
        }
        self.send()?;
        let answer = self.answer()?;
        let input_stands = self.memory(lent[0].len())? == lent[0];
        let (cells, results) = (self.memory(lent[1].len())?, self.memory(lent[2].len())?);
        let ((cells, one), (results, other)) = (opened(&cells, BESIDE_WORDS), opened(&results, BESIDE_WORDS));
        let (cells, results) = (words_of(cells), words_of(results));
        Ok(LeftTwo { answer, cells, results, guards_stand: one && other, input_stands })
    }

    /// Plans a book into results that hold the given bytes before.
    pub fn plan(&mut self, book: &[u8], results: &[u8]) -> Result<Left> {
        let (input, lent) = (guarded(book, BESIDE_BYTES), guarded(results, BESIDE_BYTES));
        let (at, room_at) = ((INPUT + BESIDE_BYTES) as u32, (ROOM + BESIDE_BYTES) as u32);
        let arguments = [at, book.len() as u32, room_at, results.len() as u32];
        self.left_by(Function::Plan, &arguments, &input, &lent)
    }

    /// The most bytes of stack that any call of `plan` has taken so far.
    pub fn deepest(&mut self) -> Result<u64> {
        self.call(Function::Deepest, &[])?;
        self.send()?;
        self.answer()
    }
}

/// The setting words and the signals that a book is asked for.
#[derive(Clone, Debug, Default)]
pub struct Asked {
    pub settings: Vec<u32>,
    pub parts: Vec<u32>,
}

/// What it gave for them.
#[derive(Clone, Debug, PartialEq, Eq)]
pub struct Given {
    pub settings: Vec<u32>,
    pub parts: Vec<u64>,
}

impl Drop for Library {
    /// Nothing more will be asked: the caller is ended and waited for.
    fn drop(&mut self) {
        let _ = self.process.kill();
        let _ = self.process.wait();
    }
}
