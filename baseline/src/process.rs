//! The process: its words, its streams, and its end. All that is `unsafe` stands here.

use crate::status::Status;
use std::alloc::{GlobalAlloc, Layout, System};
use std::ffi::OsString;
use std::fs::File;
use std::io::{Read, Write};
use std::mem::ManuallyDrop;
use std::os::unix::io::FromRawFd;
use std::sync::atomic::{AtomicBool, Ordering};

pub const MOST_INPUT: usize = 16_777_216;
const OUT_OF_MEMORY: i32 = 7;
const SIGPIPE: i32 = 13;
const IGNORE: usize = 1;

extern "C" {
    fn signal(number: i32, handler: usize) -> usize;
    fn _exit(status: i32) -> !;
}

/// An allocator that ends the process with the status of Memory where there is no more.
pub struct Memory;

// SAFETY: all is handed on to the allocator of the system; a call that failed does not return.
unsafe impl GlobalAlloc for Memory {
    unsafe fn alloc(&self, layout: Layout) -> *mut u8 {
        or_end(System.alloc(layout))
    }

    unsafe fn alloc_zeroed(&self, layout: Layout) -> *mut u8 {
        or_end(System.alloc_zeroed(layout))
    }

    unsafe fn realloc(&self, place: *mut u8, layout: Layout, size: usize) -> *mut u8 {
        or_end(System.realloc(place, layout, size))
    }

    unsafe fn dealloc(&self, place: *mut u8, layout: Layout) {
        System.dealloc(place, layout)
    }
}

#[inline]
fn or_end(place: *mut u8) -> *mut u8 {
    if place.is_null() {
        end_without_memory();
    }
    place
}

#[cold]
fn end_without_memory() -> ! {
    static HAS_ENDED: AtomicBool = AtomicBool::new(false);
    if !HAS_ENDED.swap(true, Ordering::Relaxed) {
        let _ = stream(2).write_all(b"out of memory\n");
    }
    // SAFETY: the call takes a number and does not return.
    unsafe { _exit(OUT_OF_MEMORY) }
}

/// A standard stream by its number, which is left open.
fn stream(number: i32) -> ManuallyDrop<File> {
    // SAFETY: a number that is not open makes reads and writes fail, and nothing else.
    ManuallyDrop::new(unsafe { File::from_raw_fd(number) })
}

pub fn output() -> File {
    ManuallyDrop::into_inner(stream(1))
}

/// Standard input up to its end, if it is not too long.
pub fn input() -> Result<Vec<u8>, Status> {
    let mut file = stream(0);
    let mut text = vec![0; 64 * 1024];
    let mut length = 0;
    loop {
        match file.read(&mut text[length..]) {
            Err(_) => return Err(Status::ReadFault),
            Ok(0) => break,
            Ok(bytes) => length += bytes,
        }
        if length > MOST_INPUT {
            return Err(Status::TooLong);
        }
        if length == text.len() {
            // What is never read should not take memory either.
            text.resize((length + (length / 8).max(256 * 1024)).min(MOST_INPUT + 1), 0);
        }
    }
    text.truncate(length);
    Ok(text)
}

/// Runs a program on the words after its name, and gives the number of its status. The `main` of Rust would put
/// `/dev/null` in the place of a standard stream that is closed, so the programs have that of C.
pub fn run(program: fn(&[OsString]) -> Status) -> i32 {
    // SAFETY: a write to a pipe that nobody reads then fails and does not end the process.
    unsafe { signal(SIGPIPE, IGNORE) };
    let words: Vec<OsString> = std::env::args_os().skip(1).collect();
    let status = program(&words);
    if status.number() != 0 {
        let _ = stream(2).write_all(format!("{}\n", status.line()).as_bytes());
    }
    status.number()
}
