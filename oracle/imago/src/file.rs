//! A stand-in for imago's `file.rs`. `Box<dyn DynStorage>::open` names its type; nothing here opens one.

use crate::io_buffers::{IoVector, IoVectorMut};
use crate::storage::drivers::CommonStorageHelper;
use crate::Storage;
use std::fmt::{self, Display, Formatter};
use std::io;

/// A file that cannot be opened: the trait's default for `open` and `create_open` is an error.
#[derive(Debug)]
pub struct File {
    helper: CommonStorageHelper,
}

fn unsupported() -> io::Result<()> {
    Err(io::ErrorKind::Unsupported.into())
}

impl Storage for File {
    fn size(&self) -> io::Result<u64> {
        Err(io::ErrorKind::Unsupported.into())
    }

    async unsafe fn pure_readv(&self, _bufv: IoVectorMut<'_>, _offset: u64) -> io::Result<()> {
        unsupported()
    }

    async unsafe fn pure_writev(&self, _bufv: IoVector<'_>, _offset: u64) -> io::Result<()> {
        unsupported()
    }

    async fn flush(&self) -> io::Result<()> {
        unsupported()
    }

    async fn sync(&self) -> io::Result<()> {
        unsupported()
    }

    async unsafe fn invalidate_cache(&self) -> io::Result<()> {
        unsupported()
    }

    fn get_storage_helper(&self) -> &CommonStorageHelper {
        &self.helper
    }
}

impl Display for File {
    fn fmt(&self, f: &mut Formatter<'_>) -> fmt::Result {
        f.write_str("no file")
    }
}
