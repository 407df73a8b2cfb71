//! The proved library's calls, and beside them those of an older library, whose names begin with before_.

use std::hint::black_box;

pub const TASKS: usize = 32;
pub const REPORT_BYTES: usize = 1024;
pub const STATE_BYTES: usize = 536;
pub const LOG_BYTES: usize = 568;

// Rust cannot read tests/calls.h, so the calls are declared here once more.
macro_rules! libraries {
    ($($call:ident($($word:ident: $kind:ty),*);)*) => {
        mod after {
            extern "C" { $(#[link_name = concat!("yolizadwa_", stringify!($call))] pub fn $call($($word: $kind),*) -> u64;)* }
        }
        mod before {
            extern "C" { $(#[link_name = concat!("before_yolizadwa_", stringify!($call))] pub fn $call($($word: $kind),*) -> u64;)* }
        }
        pub struct Library { $(pub $call: unsafe extern "C" fn($($kind),*) -> u64,)* }
        pub static AFTER: Library = Library { $($call: after::$call,)* };
        static BEFORE: Library = Library { $($call: before::$call,)* };
    };
}

libraries! {
    check(file: *const u8, file_len: usize, report: *mut u8, report_len: usize);
    check_plainly(file: *const u8, file_len: usize, report: *mut u8, report_len: usize);
    quick(file: *const u8, file_len: usize);
    distance(file: *const u8, file_len: usize);
    largest(file: *const u8, file_len: usize, task: u32);
    start(file: *const u8, file_len: usize, state: *mut u8, state_len: usize);
    step(file: *const u8, file_len: usize, state: *mut u8, state_len: usize, done: u32);
    log_start(file: *const u8, file_len: usize, state: *mut u8, state_len: usize);
    log_feed(file: *const u8, file_len: usize, state: *mut u8, state_len: usize, piece: *const u8, piece_len: usize);
    log_finish(file: *const u8, file_len: usize, state: *mut u8, state_len: usize);
}

/// bench/run links every call that the older library lacks, or all without one, to this.
#[no_mangle]
pub extern "C" fn lacking() -> u64 {
    panic!("the library before lacks this call")
}

/// The present library, and behind it the older one if it has the call.
pub fn sides(call: fn(&Library) -> usize) -> Vec<&'static Library> {
    if call(&BEFORE) == black_box(lacking as extern "C" fn() -> u64 as usize) {
        vec![&AFTER]
    } else {
        vec![&AFTER, &BEFORE]
    }
}

pub fn has_before() -> bool {
    sides(|library| library.check as usize).len() == 2
}

impl Library {
    pub fn check(&self, file: &[u8], report: &mut [u8]) -> u64 {
        unsafe { (self.check)(file.as_ptr(), file.len(), report.as_mut_ptr(), report.len()) }
    }

    pub fn check_plainly(&self, file: &[u8], report: &mut [u8]) -> u64 {
        unsafe { (self.check_plainly)(file.as_ptr(), file.len(), report.as_mut_ptr(), report.len()) }
    }

    pub fn quick(&self, file: &[u8]) -> u64 {
        unsafe { (self.quick)(file.as_ptr(), file.len()) }
    }

    pub fn distance(&self, file: &[u8]) -> u64 {
        unsafe { (self.distance)(file.as_ptr(), file.len()) }
    }

    pub fn largest(&self, file: &[u8], task: usize) -> u64 {
        unsafe { (self.largest)(file.as_ptr(), file.len(), task as u32) }
    }

    pub fn start(&self, file: &[u8], state: &mut [u8]) -> u64 {
        unsafe { (self.start)(file.as_ptr(), file.len(), state.as_mut_ptr(), state.len()) }
    }

    pub fn step(&self, file: &[u8], state: &mut [u8], done: u32) -> u64 {
        unsafe { (self.step)(file.as_ptr(), file.len(), state.as_mut_ptr(), state.len(), done) }
    }

    pub fn log_start(&self, file: &[u8], state: &mut [u8]) -> u64 {
        unsafe { (self.log_start)(file.as_ptr(), file.len(), state.as_mut_ptr(), state.len()) }
    }

    pub fn log_feed(&self, file: &[u8], state: &mut [u8], piece: &[u8]) -> u64 {
        unsafe { (self.log_feed)(file.as_ptr(), file.len(), state.as_mut_ptr(), state.len(), piece.as_ptr(), piece.len()) }
    }

    pub fn log_finish(&self, file: &[u8], state: &mut [u8]) -> u64 {
        unsafe { (self.log_finish)(file.as_ptr(), file.len(), state.as_mut_ptr(), state.len()) }
    }
}

pub fn report(file: &[u8]) -> String {
    text(|report| AFTER.check(file, report))
}

pub fn plain_report(file: &[u8]) -> String {
    text(|report| AFTER.check_plainly(file, report))
}

fn text(check: impl Fn(&mut [u8]) -> u64) -> String {
    let mut report = [0u8; REPORT_BYTES];
    let length = check(&mut report);
    assert!(length < 65536, "refused {} at {}", length >> 16, length & 0xffff);
    String::from_utf8(report[..length as usize].to_vec()).unwrap()
}
