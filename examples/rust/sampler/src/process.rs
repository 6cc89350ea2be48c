//! A process that is stopped and goes on, by ptrace.

use std::ffi::{c_int, c_long, c_uint, c_ulong};
use std::fs;
use std::io::{Error, Result};
use std::os::unix::fs::FileExt;
use std::process::{Child, Command, Stdio};

/// How much of a stack is copied.
const COPIED: usize = 1 << 16;

/// The registers of a thread, as `struct user_regs_struct` has them.
#[repr(C)]
#[derive(Default)]
#[rustfmt::skip]
pub struct Registers {
    _r15_to_r12: [u64; 4], pub rbp: u64, pub rbx: u64, _r11_to_orig_rax: [u64; 10], pub rip: u64, _cs_eflags: [u64; 2], pub rsp: u64,
    _ss_to_gs: [u64; 7],
}

const _: () = assert!(size_of::<Registers>() == 27 * 8 && std::mem::offset_of!(Registers, rsp) == 19 * 8);

unsafe extern "C" {
    fn ptrace(request: c_uint, ...) -> c_long;
    fn waitpid(id: c_int, status: *mut c_int, options: c_int) -> c_int;
}

const CONTINUE: c_uint = 7;
const GET_REGISTERS: c_uint = 12;
const SEIZE: c_uint = 0x4206;
const INTERRUPT: c_uint = 0x4207;
const EVENT_STOP: c_int = 128;
const ALL_THREADS: c_int = 0x4000_0000;

/// A request without an answer in memory.
fn request(what: c_uint, thread: c_int, data: c_ulong) -> Result<()> {
    // SAFETY: these requests write nothing.
    match unsafe { ptrace(what, thread, 0 as c_ulong, data) } {
        -1 => Err(Error::last_os_error()),
        _ => Ok(()),
    }
}

/// A child, with the threads that are followed.
pub struct Process {
    child: Child,
    memory: fs::File,
    threads: Vec<c_int>,
    stopped: Vec<c_int>,
}

impl Process {
    /// Starts a program. What it prints goes to standard error.
    pub fn start(program: &str, words: impl Iterator<Item = String>) -> Result<Process> {
        let child = Command::new(program).args(words).stdout(Stdio::from(std::io::stderr())).spawn()?;
        request(SEIZE, child.id() as c_int, 0)?;
        let memory = fs::File::open(format!("/proc/{}/mem", child.id()))?;
        Ok(Process { threads: vec![child.id() as c_int], child, memory, stopped: Vec::new() })
    }

    /// The number of the process.
    pub fn id(&self) -> u32 {
        self.child.id()
    }

    /// Stops all threads, and gives the registers of each, or `None` if the process has ended.
    pub fn stop(&mut self) -> Result<Option<Vec<Registers>>> {
        for task in fs::read_dir(format!("/proc/{}/task", self.id()))? {
            let Some(thread) = task?.file_name().to_str().and_then(|it| it.parse().ok()) else { continue };
            if !self.threads.contains(&thread) && request(SEIZE, thread, 0).is_ok() {
                self.threads.push(thread);
            }
        }
        self.stopped = self.threads.iter().copied().filter(|it| stop(*it)).collect();
        self.threads.clone_from(&self.stopped);
        if !self.stopped.contains(&(self.id() as c_int)) {
            return Ok(None);
        }
        self.stopped.iter().map(|it| registers_of(*it)).collect::<Result<_>>().map(Some)
    }

    /// Lets the stopped threads go on.
    pub fn go_on(&mut self) -> Result<()> {
        self.stopped.drain(..).try_for_each(|it| request(CONTINUE, it, 0))
    }

    /// The stack from an address on, as far as it is there.
    pub fn copy(&self, address: u64) -> Vec<u8> {
        let mut bytes = vec![0; COPIED];
        let count = self.memory.read_at(&mut bytes, address).unwrap_or(0);
        bytes.truncate(count);
        bytes
    }

    /// The word at an address.
    pub fn word_at(&self, address: u64) -> Option<u64> {
        let mut bytes = [0; 8];
        self.memory.read_exact_at(&mut bytes, address).ok().map(|()| u64::from_le_bytes(bytes))
    }

    /// Ends the process. The first of its threads ends when the ends of the others were waited for.
    pub fn end(mut self) -> Result<()> {
        let _ = self.child.kill();
        for thread in self.threads.iter().filter(|it| **it != self.child.id() as c_int) {
            // SAFETY: no status is asked for.
            unsafe { waitpid(*thread, std::ptr::null_mut(), ALL_THREADS) };
        }
        self.child.wait().map(drop)
    }
}

/// Stops a thread, and says whether it is stopped and hasn't ended. Signals that come meanwhile are passed on.
fn stop(thread: c_int) -> bool {
    let mut status = 0;
    if request(INTERRUPT, thread, 0).is_err() {
        return false;
    }
    // SAFETY: the status is written to a place for it.
    while unsafe { waitpid(thread, &mut status, ALL_THREADS) } == thread && status & 0xff == 0x7f {
        if status >> 16 == EVENT_STOP {
            return true;
        }
        if request(CONTINUE, thread, (status >> 8 & 0xff) as c_ulong).is_err() {
            return false;
        }
    }
    false
}

fn registers_of(thread: c_int) -> Result<Registers> {
    let mut registers = Registers::default();
    // SAFETY: the registers are written to a place for them.
    match unsafe { ptrace(GET_REGISTERS, thread, 0 as c_ulong, &mut registers) } {
        -1 => Err(Error::last_os_error()),
        _ => Ok(registers),
    }
}
