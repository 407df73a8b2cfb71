//! Puts requests to the library and holds what comes back to what is permitted.

use crate::calls::{Call, Calls, Reply, Request, CALLS};
use crate::reference;

const BATCH: usize = 2_000;
const SHOWN: u64 = 5;
const BYTES_SHOWN: usize = 600;

/// The result and the buffer that a request must give.
pub type Permitted = (u64, Vec<u8>);

pub struct Bench {
    pub calls: Calls,
    queue: Vec<(Request, Permitted)>,
    group: (u64, u64),
    total: (u64, u64),
    asked: [u64; CALLS.len()],
}

impl Bench {
    pub fn new() -> Bench {
        Bench { calls: Calls::open(), queue: Vec::new(), group: (0, 0), total: (0, 0), asked: [0; CALLS.len()] }
    }

    pub fn count(&mut self, good: bool, what: impl FnOnce() -> String) {
        if good {
            self.group.0 += 1;
            return;
        }
        self.group.1 += 1;
        if self.group.1 <= SHOWN {
            println!("FAILED: {}", what());
        }
    }

    /// The reference says what is permitted.
    pub fn ask(&mut self, request: Request) {
        let permitted = reference::answer(&request);
        self.ask_knowing(request, permitted);
    }

    /// A check is made by both engines, and its report is one that passes exactly if the reference's verdict is.
    pub fn ask_knowing(&mut self, request: Request, permitted: Permitted) {
        if request.call == Call::Check {
            self.queue.push((request.clone().plainly(), permitted.clone()));
            let passes = u64::from(reference::passes(&request));
            self.queue.push((Request::passes(permitted.1.clone(), permitted.0), (passes, Vec::new())));
        }
        self.queue.push((request, permitted));
        if self.queue.len() >= BATCH {
            self.flush();
        }
    }

    /// The bytes must stand at the buffer's front, with their number as the result.
    pub fn ask_filled(&mut self, request: Request, bytes: &[u8]) {
        let buffer = [bytes, &request.buffer[bytes.len()..]].concat();
        self.ask_knowing(request, (bytes.len() as u64, buffer));
    }

    pub fn answer(&mut self, requests: &[Request]) -> Vec<Reply> {
        for request in requests {
            self.asked[request.call as usize] += 1;
        }
        self.calls.answer(requests)
    }

    fn flush(&mut self) {
        if self.queue.is_empty() {
            return;
        }
        let (requests, permitted): (Vec<Request>, Vec<Permitted>) = self.queue.drain(..).unzip();
        let replies = self.answer(&requests);
        for ((request, permitted), reply) in requests.iter().zip(permitted).zip(replies) {
            let good = reply.intact && reply.result == permitted.0 && reply.buffer == permitted.1;
            self.count(good, || story(request, &permitted, &reply));
        }
    }

    pub fn end_group(&mut self, name: &str) {
        self.flush();
        let (passed, failed) = std::mem::take(&mut self.group);
        println!("{name}: {passed} passed, {failed} failed");
        self.total = (self.total.0 + passed, self.total.1 + failed);
    }

    pub fn end(self) -> bool {
        let asked: Vec<String> = CALLS.iter().map(|&(call, name)| format!("{name} {}", self.asked[call as usize])).collect();
        println!("calls made: {}", asked.join(", "));
        println!("host tests: {} passed, {} failed", self.total.0, self.total.1);
        self.total.1 == 0
    }
}

fn hex(bytes: &[u8]) -> String {
    bytes.iter().take(BYTES_SHOWN).map(|byte| format!("{byte:02x}")).collect()
}

fn story(request: &Request, permitted: &Permitted, reply: &Reply) -> String {
    let place = (0..reply.buffer.len()).find(|&at| reply.buffer[at] != permitted.1[at]);
    format!(
        "{:?} {} file of {} {} buffer of {} {}\n  result {} permitted {}, first other byte {:?}, intact {}\n  got {:?}",
        request.call,
        request.number,
        request.file.len(),
        hex(&request.file),
        request.buffer.len(),
        hex(&request.buffer[..request.buffer.len().min(reference::STATE_BYTES)]),
        reply.result,
        permitted.0,
        place,
        reply.intact,
        String::from_utf8_lossy(&reply.buffer[..reply.buffer.len().min(200)])
    )
}
