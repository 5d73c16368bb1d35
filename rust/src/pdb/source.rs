use std::fmt;
use std::io::{self, Read, Seek, SeekFrom};

use crate::Format;

/// How many bytes a program database has at the least, of which the first are its header.
const HEADER: usize = 4096;

/// Bytes of a source that follow one another.
#[derive(Debug, Clone, Copy, PartialEq, Eq)]
pub struct SourceSlice {
    /// Where in the source they begin.
    pub offset: u64,
    /// How many there are.
    pub size: usize,
}

/// Bytes of a source, in memory.
pub trait SourceView<'s>: fmt::Debug {
    /// The bytes.
    fn as_slice(&self) -> &[u8];
}

/// Something that can be read as a file: whatever reads and seeks, and what gives the bytes of its slices.
pub trait Source<'s>: fmt::Debug {
    /// The bytes of slices, one after another. It is an error if the source lacks some of them.
    fn view(&mut self, slices: &[SourceSlice]) -> io::Result<Box<dyn SourceView<'s>>>;

    /// The bytes of the whole file: those that its header counts.
    #[doc(hidden)]
    fn file(&mut self) -> io::Result<Vec<u8>> {
        let view = self.view(&[SourceSlice { offset: 0, size: HEADER }])?;
        let header = view.as_slice();
        // The size of a page, and how many pages there are.
        let [page_size, pages] =
            [32, 40].map(|at| header.get(at..).and_then(<[u8]>::first_chunk).map_or(0, |it| u32::from_le_bytes(*it)));
        if Format::of(header) != Format::Msf7 || page_size > 1 << 23 {
            return Ok(header.to_vec());
        }
        let size = u64::from(page_size) * u64::from(pages);
        let size = usize::try_from(size).map_err(|_| io::ErrorKind::OutOfMemory)?.max(HEADER);
        Ok(self.view(&[SourceSlice { offset: 0, size }])?.as_slice().to_vec())
    }
}

impl<'s, T: Read + Seek + fmt::Debug + 's> Source<'s> for T {
    fn view(&mut self, slices: &[SourceSlice]) -> io::Result<Box<dyn SourceView<'s>>> {
        let mut bytes = Vec::new();
        for slice in slices {
            self.seek(SeekFrom::Start(slice.offset))?;
            let count = self.by_ref().take(slice.size as u64).read_to_end(&mut bytes)?;
            if count < slice.size {
                return Err(io::ErrorKind::UnexpectedEof.into());
            }
        }
        Ok(Box::new(Bytes(bytes)))
    }

    fn file(&mut self) -> io::Result<Vec<u8>> {
        let mut bytes = Vec::new();
        self.rewind()?;
        self.read_to_end(&mut bytes)?;
        Ok(bytes)
    }
}

/// Bytes that were read.
#[derive(Debug)]
struct Bytes(Vec<u8>);

impl SourceView<'_> for Bytes {
    fn as_slice(&self) -> &[u8] {
        &self.0
    }
}
