//! A file that is written whole or not at all: in the same folder under another name, and under its own when all of it
//! has reached the drive.

use crate::input::Identity;
use crate::system;
use crate::trouble::{failed, name_of, reason, refused, Outcome};
use std::fs::{self, File, Metadata, OpenOptions};
use std::io::{self, Write};
use std::os::unix::ffi::OsStrExt;
use std::os::unix::fs::{MetadataExt, OpenOptionsExt};
use std::path::{Path, PathBuf};

/// How many names are tried: what an earlier run left that was killed is not written over.
const NAMES: u32 = 100;

/// A file on its way. Where it does not come to its name, nothing of it is left.
#[derive(Debug)]
pub struct NewFile {
    /// How it is called in a refusal: `TABLE fleet.table`.
    said: String,
    path: PathBuf,
    folder: PathBuf,
    /// The file that it replaces.
    replaced: Option<Identity>,
    replace: bool,
    file: File,
    /// The name that it has until it is whole; none from then on.
    held: Option<PathBuf>,
}

impl NewFile {
    /// Begins a file. One that is there is replaced where `replace`, and otherwise refused, as is all that is no
    /// regular file.
    pub fn begin(name: &str, path: &Path, replace: bool) -> Outcome<NewFile> {
        let said = format!("{name} {}", name_of(path));
        let old = look_at(&said, path, replace)?;
        let folder = match path.parent() {
            Some(folder) if !folder.as_os_str().is_empty() => folder.to_path_buf(),
            _ => PathBuf::from("."),
        };
        let (held, file) = match hold(&folder) {
            Ok(held) => held,
            Err(error) => return refused(format!("{said}: its folder: {}", reason(&error))),
        };
        let replaced = old.as_ref().map(|old| (old.dev(), old.ino()));
        let new = NewFile { said, path: path.into(), folder, replaced, replace, file, held: Some(held) };
        if let Some(old) = old {
            // A file system that has no permissions has none to keep.
            let _ = new.file.set_permissions(old.permissions());
        }
        Ok(new)
    }

    /// The file that it is to replace.
    pub fn replaced(&self) -> Option<Identity> {
        self.replaced
    }

    /// Writes bytes, which have reached the drive then.
    pub fn write(&mut self, bytes: &[u8]) -> Outcome<()> {
        let written = self.file.write_all(bytes).and_then(|()| self.file.sync_all());
        written.or_else(|error| failed(format!("{}: {}; nothing was made", self.said, reason(&error))))
    }

    /// Gives the file its name, at once: who opens that finds all bytes or none.
    pub fn put(mut self) -> Outcome<()> {
        let Some(held) = &self.held else { return Ok(()) };
        let named = match self.replace {
            true => fs::rename(held, &self.path),
            false => system::rename_new(held, &self.path),
        };
        match named {
            Ok(()) => self.held = None,
            Err(error) if error.kind() == io::ErrorKind::AlreadyExists => return refused(is_there(&self.said)),
            Err(error) => return failed(format!("{}: {}; nothing was made", self.said, reason(&error))),
        }
        let synced = File::open(&self.folder).and_then(|folder| folder.sync_all());
        synced.or_else(|error| failed(format!("{}: fsync of its folder: {}; it was made", self.said, reason(&error))))
    }
}

impl Drop for NewFile {
    fn drop(&mut self) {
        if let Some(held) = &self.held {
            let _ = fs::remove_file(held);
        }
    }
}

fn is_there(said: &str) -> String {
    format!("{said}: is there already; --replace puts the new one in its place")
}

/// What stands under the name: nothing, or a regular file that may be replaced.
fn look_at(said: &str, path: &Path, replace: bool) -> Outcome<Option<Metadata>> {
    if path.as_os_str().as_bytes().ends_with(b"/") {
        return refused(format!("{said}: is the name of a folder"));
    }
    let old = match fs::symlink_metadata(path) {
        Ok(old) => old,
        Err(error) if error.kind() == io::ErrorKind::NotFound && path.file_name().is_some() => return Ok(None),
        Err(error) => return refused(format!("{said}: {}", reason(&error))),
    };
    if old.is_symlink() {
        return refused(format!("{said}: is a symbolic link: name the file that it leads to"));
    }
    if !old.is_file() {
        return refused(format!("{said}: is there and no regular file; - is standard output"));
    }
    if !replace {
        return refused(is_there(said));
    }
    // A file that may not be written is not replaced either. What stands there now may be something else.
    let flags = libc::O_NOFOLLOW | libc::O_NONBLOCK | libc::O_NOCTTY;
    match OpenOptions::new().write(true).custom_flags(flags).open(path).and_then(|file| file.metadata()) {
        Ok(old) => Ok(Some(old)),
        Err(error) => refused(format!("{said}: {}", reason(&error))),
    }
}

/// A new file in a folder, under a name that nobody has.
fn hold(folder: &Path) -> io::Result<(PathBuf, File)> {
    let mut last = io::Error::from(io::ErrorKind::AlreadyExists);
    for i in 0..NAMES {
        let path = folder.join(format!(".pitchcase-{}-{i}.new", std::process::id()));
        match OpenOptions::new().write(true).create_new(true).open(&path) {
            Ok(file) => return Ok((path, file)),
            Err(error) if error.kind() == io::ErrorKind::AlreadyExists => last = error,
            Err(error) => return Err(error),
        }
    }
    Err(last)
}

#[cfg(test)]
mod tests {
    use super::*;
    use std::os::unix::fs::PermissionsExt;

    /// A folder of its own, with the names of what is in it.
    struct Folder(PathBuf);

    impl Folder {
        fn new(name: &str) -> Folder {
            let path = std::env::temp_dir().join(format!("pitchcase-newfile-{}-{name}", std::process::id()));
            fs::create_dir(&path).unwrap();
            Folder(path)
        }

        fn names(&self) -> Vec<String> {
            let entries = fs::read_dir(&self.0).unwrap();
            let mut names: Vec<String> =
                entries.map(|entry| entry.unwrap().file_name().into_string().unwrap()).collect();
            names.sort();
            names
        }
    }

    impl Drop for Folder {
        fn drop(&mut self) {
            let _ = fs::remove_dir_all(&self.0);
        }
    }

    #[test]
    fn a_file_has_its_name_only_when_it_is_whole() {
        let folder = Folder::new("whole");
        let path = folder.0.join("a");
        let mut file = NewFile::begin("TABLE", &path, false).unwrap();
        file.write(b"bytes").unwrap();
        assert!(!path.exists());
        drop(file);
        assert!(folder.names().is_empty());
        let mut file = NewFile::begin("TABLE", &path, false).unwrap();
        file.write(b"bytes").unwrap();
        file.put().unwrap();
        assert_eq!((folder.names(), fs::read(&path).unwrap()), (vec!["a".into()], b"bytes".to_vec()));
    }

    #[test]
    fn a_file_that_is_there_is_replaced_only_where_asked() {
        let folder = Folder::new("replace");
        let path = folder.0.join("a");
        fs::write(&path, b"old").unwrap();
        fs::set_permissions(&path, fs::Permissions::from_mode(0o640)).unwrap();
        assert_eq!(NewFile::begin("TABLE", &path, false).unwrap_err().status(), 2);
        let mut file = NewFile::begin("TABLE", &path, true).unwrap();
        file.write(b"new").unwrap();
        assert_eq!(fs::read(&path).unwrap(), b"old");
        file.put().unwrap();
        assert_eq!((folder.names(), fs::read(&path).unwrap()), (vec!["a".into()], b"new".to_vec()));
        assert_eq!(fs::metadata(&path).unwrap().permissions().mode() & 0o777, 0o640);
    }

    /// One that comes meanwhile is not replaced either.
    #[test]
    fn a_file_that_comes_meanwhile_stays() {
        let folder = Folder::new("meanwhile");
        let path = folder.0.join("a");
        let mut file = NewFile::begin("TABLE", &path, false).unwrap();
        file.write(b"new").unwrap();
        fs::write(&path, b"other").unwrap();
        assert_eq!(file.put().unwrap_err().status(), 2);
        assert_eq!((folder.names(), fs::read(&path).unwrap()), (vec!["a".into()], b"other".to_vec()));
    }

    #[test]
    fn what_is_no_regular_file_is_refused() {
        let folder = Folder::new("kinds");
        std::os::unix::fs::symlink("a", folder.0.join("link")).unwrap();
        for path in [&folder.0, &folder.0.join("link"), &folder.0.join("a/"), Path::new("/dev/null"), Path::new("")] {
            for replace in [false, true] {
                assert_eq!(NewFile::begin("TABLE", path, replace).unwrap_err().status(), 2, "{path:?}");
            }
        }
        assert_eq!(folder.names(), ["link"]);
    }
}
