//! The bytes of a capture. A file is mapped, unless it is short; anything else, as a pipe, is read as it comes.

use crate::standard;
use memmap2::{Advice, Mmap, MmapOptions};
use rustix::io::Errno;
use std::fs::{File, Metadata};
use std::io::{self, ErrorKind, Read, Seek};
use std::time::Duration;

/// A file of at most so many bytes is read. To map it would take longer, above all while other cores map others.
const SHORT: u64 = 96 << 10;

/// How often a file that is followed is asked for its length.
const PAUSE: Duration = Duration::from_millis(250);

/// So many bytes of a pipe are taken at once, if they are there.
const CHUNK: usize = 64 << 10;

pub struct Input {
    file: File,
    bytes: Bytes,
}

enum Bytes {
    /// Those from a place of the file on. No bytes at all cannot be mapped.
    Mapped(u64, Option<Mmap>),
    /// All of a file.
    Read(Vec<u8>),
    /// Those that have come so far.
    Piped(Vec<u8>),
}

impl Input {
    /// The bytes of a file that are there, and none of anything else: `grow` brings these. A file that is followed is
    /// always mapped, and another is read only where it is short or its file system cannot map.
    pub fn new(mut file: File, followed: bool) -> io::Result<Input> {
        let metadata = file.metadata()?;
        if metadata.is_dir() {
            return Err(Errno::ISDIR.into());
        }
        if !metadata.is_file() {
            return Ok(Input { file, bytes: Bytes::Piped(vec![]) });
        }
        if followed || metadata.len() > SHORT {
            let start = file.stream_position()?;
            match mapped(&file, start, length(&metadata, start)) {
                Err(error) if !followed && Errno::from_io_error(&error) == Some(Errno::NODEV) => {}
                map => return Ok(Input { file, bytes: Bytes::Mapped(start, map?) }),
            }
        }
        let mut bytes = vec![];
        file.read_to_end(&mut bytes)?;
        Ok(Input { file, bytes: Bytes::Read(bytes) })
    }

    pub fn bytes(&self) -> &[u8] {
        match &self.bytes {
            Bytes::Mapped(_, map) => map.as_deref().unwrap_or_default(),
            Bytes::Read(bytes) | Bytes::Piped(bytes) => bytes,
        }
    }

    /// Maps the same bytes anew, so that the pages that were looked at no longer count as this program's memory.
    pub fn renew(&mut self) -> io::Result<()> {
        let known = self.bytes().len();
        if let Bytes::Mapped(start, map) = &mut self.bytes {
            not_shorter(length(&self.file.metadata()?, *start), known)?;
            *map = mapped(&self.file, *start, known)?;
        }
        Ok(())
    }

    pub fn is_pipe(&self) -> bool {
        matches!(self.bytes, Bytes::Piped(_))
    }

    /// Waits until there may be more bytes. An error is one of standard output.
    pub fn wait(&self) -> io::Result<()> {
        if self.is_pipe() {
            standard::wait(Some(&self.file), None)
        } else {
            standard::wait(None, Some(PAUSE))
        }
    }

    /// Takes the bytes that came. A file may always get more; a pipe ends at some time, and then this is false.
    pub fn grow(&mut self) -> io::Result<bool> {
        let known = self.bytes().len();
        match &mut self.bytes {
            Bytes::Mapped(start, map) => {
                let length = length(&self.file.metadata()?, *start);
                not_shorter(length, known)?;
                if length > known {
                    *map = mapped(&self.file, *start, length)?;
                }
                Ok(true)
            }
            Bytes::Read(_) => Ok(false),
            Bytes::Piped(bytes) => read_some(&mut self.file, bytes),
        }
    }
}

/// How many bytes a file has from a place on.
fn length(metadata: &Metadata, start: u64) -> usize {
    metadata.len().saturating_sub(start) as usize
}

fn not_shorter(length: usize, known: usize) -> io::Result<()> {
    if length < known {
        return Err(io::Error::other("the file became shorter"));
    }
    Ok(())
}

/// Appends what there is of a pipe, at least a byte: whether there was one.
fn read_some(file: &mut File, bytes: &mut Vec<u8>) -> io::Result<bool> {
    let known = bytes.len();
    bytes.try_reserve(CHUNK)?;
    bytes.resize(known + CHUNK, 0);
    let read = loop {
        match file.read(&mut bytes[known..]) {
            Err(error) if error.kind() == ErrorKind::Interrupted => {}
            read => break read,
        }
    };
    bytes.truncate(known + *read.as_ref().unwrap_or(&0));
    Ok(read? > 0)
}

/// So many bytes of a file from a place on; none are not mapped.
#[allow(unsafe_code)]
fn mapped(file: &File, start: u64, length: usize) -> io::Result<Option<Mmap>> {
    if length == 0 {
        return Ok(None);
    }
    // SAFETY: nobody may change these bytes, or cut the file shorter, while they are looked at. The help says so to
    // whoever runs the program: no program can keep others from it.
    let map = unsafe { MmapOptions::new().offset(start).len(length).map(file)? };
    // Only advice: without it the same bytes are read.
    let _ = map.advise(Advice::Sequential);
    Ok(Some(map))
}
