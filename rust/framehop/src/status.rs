//! The statuses of `framehop.h`.

use crate::error::Error;
use crate::layout::Frame;
use std::alloc::{Layout, handle_alloc_error};

/// What a step gives: its status, with the return address or the address of a word.
#[derive(Clone, Copy)]
pub(crate) struct Answer {
    status: u64,
    number: u64,
}

const OK: u32 = 0;
const NEED_WORD: u32 = 2;
const COULD_NOT_READ_STACK: u32 = 16;

impl Answer {
    /// That of a step that can't have the word at an address.
    pub(crate) fn unread(address: u64) -> Answer {
        Answer { status: COULD_NOT_READ_STACK.into(), number: address }
    }

    /// What a status says of a frame that the step was made from.
    pub(crate) fn of<R>(status: u32, frame: &Frame<R>) -> Answer {
        let number = if status == OK { frame.return_address } else { frame.word_address };
        Answer { status: status.into(), number }
    }

    /// The address of the word that has to be known first: then nothing was done.
    pub(crate) fn needed(self) -> Option<u64> {
        (self.status == NEED_WORD.into()).then_some(self.number)
    }

    /// What the step gives to its caller.
    pub(crate) fn result(self) -> Result<Option<u64>, Error> {
        match self.status as u32 {
            OK => Ok(Some(self.number)),
            1 => Ok(None),
            COULD_NOT_READ_STACK => Err(Error::CouldNotReadStack(self.number)),
            17 => Err(Error::FramepointerUnwindingMovedBackwards),
            18 => Err(Error::DidNotAdvance),
            19 => Err(Error::IntegerOverflow),
            20 => Err(Error::ReturnAddressIsNull),
            other => fail(other),
        }
    }
}

/// Goes on if a call was done.
pub(crate) fn done(status: u32) {
    if status != OK {
        fail(status);
    }
}

// Without memory this ends the process, as growing a `Vec` does.
#[cold]
fn fail(status: u32) -> ! {
    if status == 21 {
        handle_alloc_error(Layout::new::<u64>());
    }
    panic!("libframehop answers status {status}");
}
