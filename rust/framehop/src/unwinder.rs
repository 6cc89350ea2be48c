//! What unwinders have in common.

use crate::code_address::FrameAddress;
use crate::error::Error;

/// An unwinder: the modules of a process, with steps and walks over its stacks.
pub trait Unwinder: Clone {
    /// The registers of a frame.
    type UnwindRegs;

    /// What steps keep. One cache serves any unwinders of its architecture and policy.
    type Cache;

    /// A module, whose sections have the type that the unwinder names.
    type Module;

    /// Adds a module, when the process has loaded it.
    fn add_module(&mut self, module: Self::Module);

    /// Removes the module that starts at an address, when the process has unloaded it. Without such a module nothing is changed.
    fn remove_module(&mut self, module_avma_range_start: u64);

    /// The end of the module with the greatest start, or 0 without a module.
    fn max_known_code_address(&self) -> u64;

    /// Makes a step: the return address of a frame, with the caller's registers in place of the frame's, or `None` at the end of the
    /// stack. `read_stack` gives the word at an address, and is asked at most once for an address.
    fn unwind_frame<F>(
        &self,
        address: FrameAddress,
        regs: &mut Self::UnwindRegs,
        cache: &mut Self::Cache,
        read_stack: &mut F,
    ) -> Result<Option<u64>, Error>
    where
        F: FnMut(u64) -> Result<u64, ()>;

    /// The frames of a stack, of which the first is at `pc`.
    fn iter_frames<'u, 'c, 'r, F>(
        &'u self,
        pc: u64,
        regs: Self::UnwindRegs,
        cache: &'c mut Self::Cache,
        read_stack: &'r mut F,
    ) -> UnwindIterator<'u, 'c, 'r, Self, F>
    where
        F: FnMut(u64) -> Result<u64, ()>,
    {
        UnwindIterator::new(self, pc, regs, cache, read_stack)
    }
}

/// Where a walk is.
enum Place {
    /// Before its first frame.
    Starts,
    /// At a frame.
    At,
    /// After its last frame.
    Over,
}

/// The frames of a stack, one by one.
pub struct UnwindIterator<'u, 'c, 'r, U: Unwinder, F: FnMut(u64) -> Result<u64, ()>> {
    unwinder: &'u U,
    place: Place,
    // The frame that the walk is at, or its first one.
    frame: FrameAddress,
    regs: U::UnwindRegs,
    cache: &'c mut U::Cache,
    read_stack: &'r mut F,
}

impl<'u, 'c, 'r, U: Unwinder, F: FnMut(u64) -> Result<u64, ()>> UnwindIterator<'u, 'c, 'r, U, F> {
    /// A walk from these registers. `Unwinder::iter_frames` is the shorter call.
    pub fn new(unwinder: &'u U, pc: u64, regs: U::UnwindRegs, cache: &'c mut U::Cache, read_stack: &'r mut F) -> Self {
        let frame = FrameAddress::from_instruction_pointer(pc);
        UnwindIterator { unwinder, place: Place::Starts, frame, regs, cache, read_stack }
    }
}

impl<U: Unwinder, F: FnMut(u64) -> Result<u64, ()>> UnwindIterator<'_, '_, '_, U, F> {
    /// The next frame: the instruction pointer, then return addresses, and `None` after the last. After an error the walk is at the frame
    /// where it was.
    #[allow(clippy::should_implement_trait)]
    pub fn next(&mut self) -> Result<Option<FrameAddress>, Error> {
        if let Place::At = self.place {
            let Some(caller) = self.unwinder.unwind_frame(self.frame, &mut self.regs, self.cache, self.read_stack)? else {
                self.place = Place::Over;
                return Ok(None);
            };
            self.frame = FrameAddress::from_return_address(caller).ok_or(Error::ReturnAddressIsNull)?;
        } else if let Place::Over = self.place {
            return Ok(None);
        }
        self.place = Place::At;
        Ok(Some(self.frame))
    }
}
