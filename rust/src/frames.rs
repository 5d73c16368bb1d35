use crate::error::Result;
use crate::handle::Handle;
use crate::sys;

/// The kinds of frames.
#[derive(Debug, Clone, Copy, PartialEq, Eq, Hash)]
#[non_exhaustive]
pub enum FrameKind {
    /// The frame pointer is omitted.
    Fpo,
    /// A trap of the kernel.
    Trap,
    /// A task state segment.
    Tss,
    /// A frame with a base pointer.
    Standard,
    /// A frame that a program of the string table describes.
    Data,
    /// Any other kind.
    Unknown,
}

impl FrameKind {
    fn of(kind: u32) -> FrameKind {
        match kind {
            sys::PDB_FRAME_FPO => FrameKind::Fpo,
            sys::PDB_FRAME_TRAP => FrameKind::Trap,
            sys::PDB_FRAME_TSS => FrameKind::Tss,
            sys::PDB_FRAME_STANDARD => FrameKind::Standard,
            sys::PDB_FRAME_DATA => FrameKind::Data,
            _ => FrameKind::Unknown,
        }
    }
}

/// What a stack walker needs to know about the frame of a piece of code. Sizes are in bytes.
#[derive(Debug, Clone, Copy, PartialEq, Eq)]
pub struct Frame {
    /// Its kind.
    pub kind: FrameKind,
    /// The address of the first byte of the code, in the original image.
    pub code_start: u32,
    /// The size of the code.
    pub code_size: u32,
    /// The size of local variables.
    pub locals_size: u32,
    /// The size of parameters.
    pub params_size: u32,
    /// The size of the code that makes the frame.
    pub prolog_size: u32,
    /// The size of saved registers.
    pub saved_regs_size: u32,
    /// The most bytes that are pushed on the stack, if that is known.
    pub max_stack_size: Option<u32>,
    /// Whether it has structured exception handling.
    pub has_structured_eh: bool,
    /// Whether it has exception handling of C++.
    pub has_cpp_eh: bool,
    /// Whether a function begins here.
    pub is_function_start: bool,
    /// Whether it uses the base pointer.
    pub uses_base_pointer: bool,
    /// The offset of the program by which the frame is walked, in the string table.
    pub program: Option<u32>,
}

impl Frame {
    fn of(frame: &sys::Frame) -> Frame {
        Frame {
            kind: FrameKind::of(frame.kind),
            code_start: frame.code_start,
            code_size: frame.code_size,
            locals_size: frame.locals_size,
            params_size: frame.params_size,
            prolog_size: frame.prolog_size,
            saved_regs_size: frame.saved_regs_size,
            max_stack_size: (frame.has_max_stack_size != 0).then_some(frame.max_stack_size),
            has_structured_eh: frame.has_structured_eh != 0,
            has_cpp_eh: frame.has_cpp_eh != 0,
            is_function_start: frame.is_function_start != 0,
            uses_base_pointer: frame.uses_base_pointer != 0,
            program: (frame.has_program != 0).then_some(frame.program),
        }
    }
}

/// The frame table of a file, of both formats.
#[derive(Debug)]
pub struct Frames(Handle);

// SAFETY, in all of this file: places that the library writes stay in one call.

impl Frames {
    pub(crate) fn open(file: &Handle<sys::File>) -> Result<Frames> {
        file.table(|file, frames| unsafe { sys::pdb_frames_open(file, frames) }).map(Frames)
    }

    /// The frame whose code has an address of the original image, or else the first frame above it.
    pub fn at(&self, address: u32) -> Result<Option<Frame>> {
        let found = self.0.value(|frames, to| unsafe { sys::pdb_frames_at(frames, address, to) })?;
        Ok(found.map(|it| Frame::of(&it)))
    }

    /// All frames, ordered by their starts.
    pub fn list(&self) -> Result<Vec<Frame>> {
        let found =
            self.0.items(0, |frames, to, size, count| unsafe { sys::pdb_frames_list(frames, to, size, count) })?;
        Ok(found.unwrap_or_default().iter().map(Frame::of).collect())
    }
}
