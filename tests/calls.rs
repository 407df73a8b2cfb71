//! The exported calls: linked on x86-64, through a bridge program under an emulator elsewhere.
//!
//! Either way stack.c makes them, which is compiled against include/yolizadwa.h.

use crate::logbook::LOG_BYTES;
use crate::plain::LONGEST_TEXT;
use crate::reference::{ANSWER_BYTES, LONGEST_FILE, REPORT_BYTES, STATE_BYTES};

macro_rules! calls {
    ($($call:ident $name:literal,)*) => {
        #[derive(Clone, Copy, PartialEq, Eq, Debug)]
        pub enum Call {
            $($call,)*
        }

        pub const CALLS: &[(Call, &str)] = &[$((Call::$call, $name),)*];
    };
}

// The list of calls.h once more, in its order: Rust cannot read that one, and papers.rs compares the two.
calls! {
    Check "check",
    Start "start",
    Step "step",
    PressStart "press start",
    PressStep "press step",
    Write "write",
    FromText "from text",
    ToText "to text",
    Quick "quick",
    Distance "distance",
    CheckPlainly "check plainly",
    Eased "eased",
    Largest "largest",
    Room "room",
    LogStart "log start",
    LogFeed "log feed",
    LogFinish "log finish",
    Passes "passes",
    Answer "answer",
}

#[derive(Clone, Debug)]
pub struct Request {
    pub call: Call,
    /// What is read: a file, a text, a report, to write the bytes of the words, or a file and behind it the piece of a log.
    pub file: Vec<u8>,
    /// What is written, or the second file that is read, and then must stay.
    pub buffer: Vec<u8>,
    /// A step's done, below 2^32 and with what is pressed above, the budget to write, the task that is asked for, where the file ends before the piece of a log, the length that is
    /// told of a report.
    pub number: u64,
}

impl Request {
    pub fn check(file: Vec<u8>) -> Request {
        Request { call: Call::Check, file, buffer: vec![0xE7; REPORT_BYTES + 8], number: 0 }
    }

    /// The same check by the plain engine.
    pub fn plainly(self) -> Request {
        Request { call: Call::CheckPlainly, ..self }
    }

    pub fn start(file: Vec<u8>) -> Request {
        Request { call: Call::Start, file, buffer: vec![0xE7; STATE_BYTES], number: 0 }
    }

    pub fn step(file: Vec<u8>, state: Vec<u8>, done: u32) -> Request {
        Request { call: Call::Step, file, buffer: state, number: u64::from(done) }
    }

    pub fn press_start(file: Vec<u8>) -> Request {
        Request { call: Call::PressStart, ..Request::start(file) }
    }

    pub fn press_step(file: Vec<u8>, state: Vec<u8>, done: u32, pressed: u32) -> Request {
        Request { call: Call::PressStep, file, buffer: state, number: u64::from(pressed) << 32 | u64::from(done) }
    }

    pub fn write(words: &[u32], budget: u64) -> Request {
        let file = words.iter().flat_map(|word| word.to_le_bytes()).collect();
        Request { call: Call::Write, file, buffer: vec![0xE7; LONGEST_FILE + 8], number: budget }
    }

    pub fn from_text(text: Vec<u8>) -> Request {
        Request { call: Call::FromText, file: text, buffer: vec![0xE7; LONGEST_FILE + 8], number: 0 }
    }

    pub fn to_text(file: Vec<u8>) -> Request {
        Request { call: Call::ToText, file, buffer: vec![0xE7; LONGEST_TEXT + 8], number: 0 }
    }

    pub fn quick(file: Vec<u8>) -> Request {
        Request { call: Call::Quick, file, buffer: Vec::new(), number: 0 }
    }

    pub fn distance(file: Vec<u8>) -> Request {
        Request { call: Call::Distance, file, buffer: Vec::new(), number: 0 }
    }

    pub fn eased(old: Vec<u8>, new: Vec<u8>) -> Request {
        Request { call: Call::Eased, file: old, buffer: new, number: 0 }
    }

    pub fn largest(file: Vec<u8>, task: u32) -> Request {
        Request { call: Call::Largest, file, buffer: Vec::new(), number: u64::from(task) }
    }

    pub fn room(file: Vec<u8>, task: u32) -> Request {
        Request { call: Call::Room, ..Request::largest(file, task) }
    }

    pub fn log_start(file: Vec<u8>) -> Request {
        Request { call: Call::LogStart, file, buffer: vec![0xE7; LOG_BYTES], number: 0 }
    }

    pub fn log_feed(file: &[u8], log: Vec<u8>, piece: &[u8]) -> Request {
        Request { call: Call::LogFeed, file: [file, piece].concat(), buffer: log, number: file.len() as u64 }
    }

    pub fn log_finish(file: Vec<u8>, log: Vec<u8>) -> Request {
        Request { call: Call::LogFinish, file, buffer: log, number: 0 }
    }

    /// The answer of a check as numbers.
    pub fn answer(file: Vec<u8>) -> Request {
        Request { call: Call::Answer, file, buffer: vec![0xE7; ANSWER_BYTES + 8], number: 0 }
    }

    /// A report buffer, and what the check returned: the report's length, or a refusal, which is longer than the buffer.
    pub fn passes(report: Vec<u8>, told: u64) -> Request {
        Request { call: Call::Passes, file: report, buffer: Vec::new(), number: told }
    }
}

pub struct Reply {
    pub result: u64,
    /// Nothing but the buffer has changed.
    pub intact: bool,
    pub buffer: Vec<u8>,
}

impl Reply {
    /// What a call has written whose result is a length; nothing if it is refused.
    pub fn written(&self) -> Vec<u8> {
        self.buffer.get(..self.result as usize).unwrap_or_default().to_vec()
    }
}

pub use way::Calls;

#[cfg(target_arch = "x86_64")]
mod way {
    use super::{Reply, Request};

    extern "C" {
        fn plain_call(call: u32, file: *const u8, file_len: usize, buffer: *mut u8, buffer_len: usize, number: u64) -> u64;
        fn stack_depth(call: u32, file: *const u8, file_len: usize, buffer: *mut u8, buffer_len: usize, number: u64) -> u64;
    }

    /// Odd, so that file and buffer lie at no even address.
    const GUARD: usize = 61;
    const GUARD_BYTE: u8 = 0xC3;

    pub struct Calls;

    impl Calls {
        pub fn open() -> Calls {
            Calls
        }

        pub fn answer(&mut self, requests: &[Request]) -> Vec<Reply> {
            requests.iter().map(answer_one).collect()
        }

        pub fn depth(&mut self, request: &Request) -> u64 {
            let (file, mut buffer) = (guard(&request.file), guard(&request.buffer));
            let (file_len, buffer_len) = (request.file.len(), request.buffer.len());
            let (from, into) = (file[GUARD..].as_ptr(), buffer[GUARD..].as_mut_ptr());
            unsafe { stack_depth(request.call as u32, from, file_len, into, buffer_len, request.number) }
        }
    }

    fn guard(bytes: &[u8]) -> Vec<u8> {
        [&[GUARD_BYTE; GUARD][..], bytes, &[GUARD_BYTE; GUARD][..]].concat()
    }

    fn guards_hold(room: &[u8]) -> bool {
        room[..GUARD].iter().chain(&room[room.len() - GUARD..]).all(|&byte| byte == GUARD_BYTE)
    }

    fn answer_one(request: &Request) -> Reply {
        let (file, mut buffer) = (guard(&request.file), guard(&request.buffer));
        let (file_len, buffer_len) = (request.file.len(), request.buffer.len());
        let (from, into) = (file[GUARD..].as_ptr(), buffer[GUARD..].as_mut_ptr());
        let result = unsafe { plain_call(request.call as u32, from, file_len, into, buffer_len, request.number) };
        let intact = file == guard(&request.file) && guards_hold(&buffer);
        Reply { result, intact, buffer: buffer[GUARD..GUARD + buffer_len].to_vec() }
    }
}

#[cfg(not(target_arch = "x86_64"))]
mod way {
    use super::{Reply, Request};
    use std::io::{Read, Write};
    use std::process::{ChildStdin, ChildStdout, Stdio};

    pub struct Calls {
        input: ChildStdin,
        output: ChildStdout,
    }

    impl Calls {
        pub fn open() -> Calls {
            let mut command = crate::program("target/host/bridge");
            let mut child = command.stdin(Stdio::piped()).stdout(Stdio::piped()).spawn().expect("the bridge starts");
            Calls { input: child.stdin.take().unwrap(), output: child.stdout.take().unwrap() }
        }

        pub fn answer(&mut self, requests: &[Request]) -> Vec<Reply> {
            self.exchange(requests, false)
        }

        pub fn depth(&mut self, request: &Request) -> u64 {
            self.exchange(std::slice::from_ref(request), true)[0].result
        }

        /// The bridge reads a whole batch before it writes, so neither side waits for the other.
        fn exchange(&mut self, requests: &[Request], measure: bool) -> Vec<Reply> {
            let mut batch = Vec::new();
            for request in requests {
                put_request(&mut batch, request, measure);
            }
            self.input.write_all(&(batch.len() as u32).to_le_bytes()).expect("the bridge listens");
            self.input.write_all(&batch).expect("the bridge listens");
            self.input.flush().expect("the bridge listens");
            let replies_len = requests.iter().map(|request| 9 + request.buffer.len()).sum();
            let mut replies = vec![0; replies_len];
            self.output.read_exact(&mut replies).expect("the bridge answers");
            split_replies(&replies, requests)
        }
    }

    fn put_request(batch: &mut Vec<u8>, request: &Request, measure: bool) {
        let lengths = [request.file.len() as u32, request.buffer.len() as u32];
        batch.extend(request.number.to_le_bytes());
        for word in [request.call as u32, measure as u32, lengths[0], lengths[1]] {
            batch.extend(word.to_le_bytes());
        }
        batch.extend(&request.file);
        batch.extend(&request.buffer);
    }

    fn split_replies(mut bytes: &[u8], requests: &[Request]) -> Vec<Reply> {
        let mut replies = Vec::new();
        for request in requests {
            let (head, rest) = bytes.split_at(9);
            let (buffer, rest) = rest.split_at(request.buffer.len());
            let result = u64::from_le_bytes(head[..8].try_into().unwrap());
            replies.push(Reply { result, intact: head[8] == 1, buffer: buffer.to_vec() });
            bytes = rest;
        }
        replies
    }
}
