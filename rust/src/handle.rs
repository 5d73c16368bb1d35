use std::sync::{Mutex, PoisonError};

use crate::error::{Error, ErrorKind, Result};
use crate::sys;

/// A structure of the header that a call opens.
///
/// # Safety
/// It begins with a `sys::Handle`, and all of it may be zero.
pub(crate) unsafe trait Opens {}

// SAFETY: these are structures of pointers and numbers, and a handle is their first field.
unsafe impl Opens for sys::Handle {}
unsafe impl Opens for sys::File {}

/// What the library keeps open: one call at a time has it, and it is closed once, when this is dropped.
#[derive(Debug)]
pub(crate) struct Handle<H: Opens = sys::Handle>(Mutex<H>);

// SAFETY: a handle owns blocks of `malloc`, which any thread may read and free, and a file borrows bytes that threads
// share. The lock gives it to one thread at a time.
unsafe impl<H: Opens> Send for Handle<H> {}
unsafe impl<H: Opens> Sync for Handle<H> {}

impl<H: Opens> Handle<H> {
    /// Opens a handle by a call.
    pub fn open(call: impl FnOnce(*mut H) -> u32) -> Result<Handle<H>> {
        check_version()?;
        // SAFETY: all of it may be zero.
        let handle = Handle(Mutex::new(unsafe { std::mem::zeroed() }));
        answer(handle.call(call), ())?;
        Ok(handle)
    }

    /// How a call ends that gets the handle.
    pub fn call(&self, call: impl FnOnce(*mut H) -> u32) -> sys::Fault {
        // A call of the library doesn't panic, so a handle is always as a call left it.
        let mut handle = self.0.lock().unwrap_or_else(PoisonError::into_inner);
        let handle: *mut H = &mut *handle;
        let status = call(handle);
        // SAFETY: it begins with a handle, which the lock gives to this call alone.
        sys::Fault { status, ..unsafe { (*handle.cast::<sys::Handle>()).fault } }
    }

    /// What a call writes: a value that it fills in, or None where there is no answer.
    pub fn value<T: Default>(&self, call: impl FnOnce(*mut H, *mut T) -> u32) -> Result<Option<T>> {
        let mut value = T::default();
        answer(self.call(|handle| call(handle, &mut value)), value)
    }

    /// What a call copies into an array, as `fill` says.
    pub fn items<T: Clone + Default>(
        &self,
        likely: usize,
        mut call: impl FnMut(*mut H, *mut T, usize, *mut usize) -> u32,
    ) -> Result<Option<Vec<T>>> {
        fill(likely, |room, length, count| self.call(|handle| call(handle, room, length, count)))
    }

    /// The same of a call that also copies names of the items.
    pub fn named_items<T: Clone + Default>(
        &self,
        mut call: impl FnMut(*mut H, *mut T, usize, *mut usize, *mut u8, usize, *mut usize) -> u32,
    ) -> Result<Option<(Vec<T>, Vec<u8>)>> {
        let mut names = Vec::new();
        let rows = self.items(0, |handle, rows, length, count| {
            let mut size = 0;
            let status = call(handle, rows, length, count, names.as_mut_ptr(), names.len(), &mut size);
            if names.try_reserve_exact(size.saturating_sub(names.len())).is_err() {
                return sys::PDB_OUT_OF_MEMORY;
            }
            names.resize(size, 0);
            status
        })?;
        Ok(rows.map(|rows| (rows, names)))
    }
}

impl Handle<sys::File> {
    /// The bytes of a stream that a call copies. A damaged file may say that there are far more than it has: so memory is
    /// taken for them, and left to the call to touch.
    pub fn stream(&self, call: impl Fn(*mut sys::File, *mut u8, usize, *mut usize) -> u32) -> Result<Vec<u8>> {
        let (mut bytes, mut length) = (Vec::new(), 0);
        let mut fault = self.call(|file| call(file, bytes.as_mut_ptr(), 0, &mut length));
        if fault.status == sys::PDB_TOO_SMALL {
            bytes.try_reserve_exact(length).map_err(|_| ErrorKind::OutOfMemory)?;
            fault = self.call(|file| call(file, bytes.as_mut_ptr(), bytes.capacity(), &mut length));
        }
        // SAFETY: the call wrote so many bytes, none if it failed.
        unsafe { bytes.set_len(length) };
        Ok(answer(fault, bytes)?.unwrap_or_default())
    }

    /// Opens a table of the file by a call.
    pub fn table(&self, call: impl FnOnce(*mut sys::File, *mut sys::Handle) -> u32) -> Result<Handle> {
        Handle::open(|table| self.call(|file| call(file, table)).status)
    }
}

impl<H: Opens> Drop for Handle<H> {
    fn drop(&mut self) {
        let handle: *mut H = self.0.get_mut().unwrap_or_else(PoisonError::into_inner);
        // SAFETY: the handle is all zero, or the library opened it; this value alone has it, and it begins with it.
        unsafe { sys::pdb_handle_close(handle.cast()) }
    }
}

/// Whether the library has the calls of this crate: the last two digits are of versions with the same calls.
pub(crate) fn check_version() -> Result<()> {
    // SAFETY: the call takes nothing.
    let version = unsafe { sys::pdb_version() };
    if version / 100 == sys::PDB_VERSION / 100 { Ok(()) } else { Err(ErrorKind::LibraryVersion { version }.into()) }
}

/// What a call gave that ended so, None where there is no answer.
fn answer<T>(fault: sys::Fault, value: T) -> Result<Option<T>> {
    match fault.status {
        sys::PDB_OK => Ok(Some(value)),
        sys::PDB_NONE | sys::PDB_UNMAPPED => Ok(None),
        _ => Err(Error::of(&fault)),
    }
}

/// What a call copies into an array, of which it gets the address, the length, and the place for the number of items: it
/// is called with room for so many as are likely, and with enough if there are more. None where there is no answer.
fn fill<T: Clone + Default>(
    likely: usize,
    mut call: impl FnMut(*mut T, usize, *mut usize) -> sys::Fault,
) -> Result<Option<Vec<T>>> {
    let (mut room, mut count) = (vec![T::default(); likely], 0);
    loop {
        let fault = call(room.as_mut_ptr(), room.len(), &mut count);
        if fault.status != sys::PDB_TOO_SMALL {
            room.truncate(count);
            return answer(fault, room);
        }
        room.clear();
        // One more, for the NUL of a text.
        room.try_reserve_exact(count + 1).map_err(|_| ErrorKind::OutOfMemory)?;
        room.resize(count + 1, T::default());
    }
}

/// The same of a call without a handle.
pub(crate) fn items<T: Clone + Default>(
    likely: usize,
    mut call: impl FnMut(*mut T, usize, *mut usize) -> u32,
) -> Result<Option<Vec<T>>> {
    fill(likely, |room, length, count| sys::Fault { status: call(room, length, count), ..sys::Fault::default() })
}
