//! A file that grows, up to where another one takes its place.

use std::fs::File;
use std::io::{self, Read};
use std::os::unix::fs::MetadataExt;
use std::path::{Path, PathBuf};
use std::thread::sleep;
use std::time::Duration;

/// How long it waits before it looks again whether there is more.
const PAUSE: Duration = Duration::from_millis(100);

/// The bytes of a file, and those that are appended to it later. They end when another file has its name, or when it is shorter
/// than what was read.
#[derive(Debug)]
pub struct Growing {
    path: PathBuf,
    file: File,
    read: u64,
    ended: bool,
}

impl Growing {
    /// # Errors
    /// What the system says of the file.
    pub fn open(path: &Path) -> io::Result<Growing> {
        Ok(Growing { path: path.to_owned(), file: File::open(path)?, read: 0, ended: false })
    }

    /// Whether what the path names is no more what was read. While it names nothing, another file may still come.
    fn has_ended(&self) -> io::Result<bool> {
        let own = self.file.metadata()?;
        Ok(own.len() < self.read
            || self.path.metadata().map_or(false, |named| (named.dev(), named.ino()) != (own.dev(), own.ino())))
    }
}

impl Read for Growing {
    fn read(&mut self, into: &mut [u8]) -> io::Result<usize> {
        loop {
            let count = self.file.read(into)?;
            self.read += count as u64;
            if count > 0 || self.ended || into.is_empty() {
                return Ok(count);
            }
            // What was appended while the other file came is read as well.
            self.ended = self.has_ended()?;
            if !self.ended {
                sleep(PAUSE);
            }
        }
    }
}

#[cfg(test)]
mod tests {
    use super::*;
    use std::fs;
    use std::io::Write;

    /// A folder of one test, which is removed with it.
    struct Folder(PathBuf);

    impl Folder {
        fn new(name: &str) -> Folder {
            let folder = std::env::temp_dir().join(format!("taskscope-{name}-{}", std::process::id()));
            fs::create_dir(&folder).unwrap();
            Folder(folder)
        }

        fn file(&self) -> PathBuf {
            self.0.join("stream")
        }
    }

    impl Drop for Folder {
        fn drop(&mut self) {
            let _ = fs::remove_dir_all(&self.0);
        }
    }

    fn rest_of(mut growing: Growing) -> String {
        let mut rest = String::new();
        growing.read_to_string(&mut rest).unwrap();
        rest
    }

    #[test]
    fn what_is_appended_is_read_until_another_file_has_the_name() {
        let folder = Folder::new("replaced");
        let path = folder.file();
        fs::write(&path, "one ").unwrap();
        let growing = Growing::open(&path).unwrap();
        let writer = std::thread::spawn(move || {
            let mut old = File::options().append(true).open(&path).unwrap();
            sleep(3 * PAUSE);
            old.write_all(b"two ").unwrap();
            sleep(3 * PAUSE);
            fs::rename(&path, path.with_extension("old")).unwrap();
            sleep(3 * PAUSE);
            old.write_all(b"three").unwrap();
            fs::write(&path, "four").unwrap();
        });
        assert_eq!(rest_of(growing), "one two three", "what the file got before the other one was there");
        writer.join().unwrap();
    }

    #[test]
    fn a_file_that_is_cut_has_ended() {
        let folder = Folder::new("cut");
        let path = folder.file();
        fs::write(&path, "one two").unwrap();
        let growing = Growing::open(&path).unwrap();
        let writer = std::thread::spawn(move || {
            sleep(3 * PAUSE);
            fs::write(&path, "").unwrap();
        });
        assert_eq!(rest_of(growing), "one two", "what it had before it was cut");
        writer.join().unwrap();
    }
}
