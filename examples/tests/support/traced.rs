//! A program that is run under the system's tracer (ptrace) and killed at a chosen place: at the beginning or the end
//! of a chosen system call, or some machine instructions later. So each gap between two writes is met, those between
//! the words that a call writes to the mapped store too. The numbers are those of Linux on x86-64.
use std::ffi::{c_int, c_long, c_void};
use std::io;
use std::os::unix::process::CommandExt;
use std::process::{Child, Command};

const TRACE_ME: c_long = 0;
const TO_NEXT_SYSTEM_CALL: c_long = 24;
const ONE_INSTRUCTION: c_long = 9;
const PEEK: c_long = 3;
const SYSTEM_CALL: usize = 120; // where PEEK finds the number of the system call, orig_rax
const FDATASYNC: c_long = 75;

unsafe extern "C" {
    fn ptrace(request: c_long, process: c_int, address: *mut c_void, data: *mut c_void) -> c_long;
    fn waitpid(process: c_int, status: *mut c_int, options: c_int) -> c_int;
}

fn trace(request: c_long, process: c_int) -> io::Result<()> {
    // SAFETY: the three requests above look at neither of the two addresses.
    let told = unsafe { ptrace(request, process, std::ptr::null_mut(), std::ptr::null_mut()) };
    if told == 0 { Ok(()) } else { Err(io::Error::last_os_error()) }
}

/// Starts a program that waits at its first instruction.
pub fn start(command: &mut Command) -> Child {
    // SAFETY: between fork and exec only this one system call is made.
    unsafe { command.pre_exec(|| trace(TRACE_ME, 0)) };
    let child = command.spawn().expect("the program starts, and may be traced");
    assert!(is_stopped(&child), "a traced program waits");
    child
}

/// Whether the program waits for its tracer; else it has ended, and well.
fn is_stopped(child: &Child) -> bool {
    let mut status = 0;
    // SAFETY: one word is lent.
    let told = unsafe { waitpid(id(child), &raw mut status, 0) };
    assert!(told == id(child), "waitpid: {}", io::Error::last_os_error());
    let stopped = status & 0xff == 0x7f;
    assert!(stopped || status == 0, "it stopped by itself: status {status:#x}");
    stopped
}

fn id(child: &Child) -> c_int {
    c_int::try_from(child.id()).expect("a process number")
}

/// The program has ended by itself.
#[derive(Debug)]
pub struct Ended;

/// Lets the program go on to where it begins or ends its next system call, or by one instruction.
fn go_on(child: &Child, request: c_long) -> Result<(), Ended> {
    trace(request, id(child)).expect("the program waits");
    if is_stopped(child) { Ok(()) } else { Err(Ended) }
}

/// Goes past so many beginnings and ends of system calls.
pub fn pass(child: &Child, stops: u32) -> Result<(), Ended> {
    (0..stops).try_for_each(|_| go_on(child, TO_NEXT_SYSTEM_CALL))
}

/// Goes to the end of a sync, the number of which counts from 1.
pub fn pass_syncs(child: &Child, number: u32) -> Result<(), Ended> {
    let mut stops_left = 2 * number; // its beginning and its end
    while stops_left > 0 {
        go_on(child, TO_NEXT_SYSTEM_CALL)?;
        // SAFETY: a word of what the system keeps of the program that waits is read.
        let call =
            unsafe { ptrace(PEEK, id(child), std::ptr::without_provenance_mut(SYSTEM_CALL), std::ptr::null_mut()) };
        stops_left -= u32::from(call == FDATASYNC);
    }
    Ok(())
}

/// Goes on by one instruction.
pub fn step(child: &Child) -> Result<(), Ended> {
    go_on(child, ONE_INSTRUCTION)
}

/// Goes on by so many instructions, and kills the program there.
pub fn kill_after(child: &mut Child, instructions: u32) -> Result<(), Ended> {
    (0..instructions).try_for_each(|_| step(child))?;
    child.kill().expect("a program that waits can be killed");
    child.wait().expect("it is gone");
    Ok(())
}
