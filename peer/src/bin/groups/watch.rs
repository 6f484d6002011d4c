//! Tells the input on which the archive crashes or does not come back. Such a call is a difference
//! like any other, only that nothing after it can be printed by the usual way.

use std::ffi::c_int;
use std::fmt::UpperHex;
use std::mem::size_of;
use std::process::exit;
use std::sync::Mutex;

/// More than any call needs, by far.
const PATIENCE_SECONDS: u32 = 60;

const ALARM: c_int = 14;
/// Illegal instruction, trap, abort, bus error, arithmetic error, bad address, alarm.
const SIGNALS: [c_int; 7] = [4, 5, 6, 7, 8, 11, ALARM];

extern "C" {
    fn signal(number: c_int, handler: extern "C" fn(c_int)) -> usize;
    fn alarm(seconds: u32) -> u32;
}

/// What is printed of a call that differs.
#[derive(Clone)]
pub struct Call {
    pub name: &'static str,
    pub inputs: Vec<(&'static str, Vec<u8>)>,
    pub number: (&'static str, usize),
    pub peer: i32,
}

impl Call {
    pub fn print(&self) {
        println!("call: {}, {} {}", self.name, self.number.0, self.number.1);
        for (name, bytes) in &self.inputs {
            print_bytes(name, bytes);
        }
    }
}

static CURRENT: Mutex<Option<Call>> = Mutex::new(None);

/// Before the first call.
pub fn install() {
    for number in SIGNALS {
        unsafe { signal(number, tell) };
    }
}

/// Runs the archive's side of a call.
pub fn watched(call: &Call, archive: impl FnOnce() -> i32) -> i32 {
    set(Some(call.clone()));
    unsafe { alarm(PATIENCE_SECONDS) };
    let answer = archive();
    unsafe { alarm(0) };
    set(None);
    answer
}

fn set(call: Option<Call>) {
    *CURRENT.lock().expect("nothing panics while it holds this") = call;
}

/// The process is lost here, so it may do what a handler should not do otherwise. The signal came
/// out of the archive's call, which holds neither the lock nor standard output.
extern "C" fn tell(number: c_int) {
    if let Ok(current) = CURRENT.try_lock() {
        if let Some(call) = current.as_ref() {
            println!();
            call.print();
            match number {
                ALARM => println!("peer answers {}, archive does not answer", call.peer),
                _ => println!("peer answers {}, archive ends in signal {number}", call.peer),
            }
        }
    }
    exit(1);
}

pub fn print_bytes(name: &str, bytes: &[u8]) {
    println!("{name} ({} bytes): {}", bytes.len(), hexadecimal(bytes));
}

/// Each item with all its digits.
pub fn hexadecimal<T: UpperHex>(items: &[T]) -> String {
    let digits = 2 * size_of::<T>();
    items.iter().map(|item| format!("{item:0digits$X}")).collect()
}
