//! The folder of tables, which no other run writes to meanwhile.

use std::ffi::OsStr;
use std::fs::{self, DirEntry, File};
use std::io::{self, ErrorKind, Read};
use std::os::unix::ffi::OsStrExt;
use std::path::{Path, PathBuf};

use commands::{certificate, table};

use super::folder::{
    CERTIFICATE, INDEX, PAGE, STREAM, SUMMARY, Streams, TABLE, entries, file_of, not_read,
};
use super::{pages, stream, summary};

/// A file that is being written has such a name, until it has its own.
const PART: (&str, &str) = (".loss-tables.", ".part");

pub struct Out {
    folder: PathBuf,
    _alone: File,
}

impl Out {
    /// It is made where it is missing. One that holds what is none of ours is refused, if nothing
    /// there may be replaced.
    pub fn open(folder: &Path, streams: &Streams, replace: bool) -> Result<Out, String> {
        let shown = folder.display();
        let made = fs::create_dir_all(folder).and_then(|()| File::open(folder));
        let alone =
            made.map_err(|error| format!("the folder '{shown}' could not be had: {error}"))?;
        if alone.try_lock().is_err() {
            return Err(format!("another run is writing to '{shown}'"));
        }
        if !replace {
            for entry in entries(folder)? {
                if !ours(&entry, streams).map_err(|error| not_read(&entry.path(), &error))? {
                    let name = entry.file_name();
                    let name = name.display();
                    return Err(format!(
                        "'{shown}' holds '{name}', which is none of these tables; --replace writes there and leaves other files alone"
                    ));
                }
            }
        }
        Ok(Out {
            folder: folder.to_owned(),
            _alone: alone,
        })
    }

    /// The file is not there any more.
    pub fn remove(&self, name: &OsStr) -> Result<(), String> {
        match fs::remove_file(self.folder.join(name)) {
            Err(error) if error.kind() != ErrorKind::NotFound => {
                Err(self.not_written(name, &error))
            }
            _ => Ok(()),
        }
    }

    /// The file with these bytes, whole or not at all. What is there already is left as it is.
    pub fn put(&self, worker: usize, name: &OsStr, bytes: &[u8]) -> Result<(), String> {
        if fs::read(self.folder.join(name)).is_ok_and(|found| found == bytes) {
            return Ok(());
        }
        self.write(worker, name, |part| fs::write(part, bytes))
    }

    /// The same with the bytes of another file, whose digest is this.
    pub fn copy(
        &self,
        worker: usize,
        name: &OsStr,
        from: &Path,
        digest: &str,
    ) -> Result<(), String> {
        if stream::digest(&self.folder.join(name)).is_ok_and(|found| found == digest) {
            return Ok(());
        }
        // Its bytes alone: a part that may not be written to would stop the next run.
        self.write(worker, name, |part| {
            let (mut from, mut part) = (File::open(from)?, File::create(part)?);
            io::copy(&mut from, &mut part).map(drop)
        })
    }

    fn write(
        &self,
        worker: usize,
        name: &OsStr,
        write: impl FnOnce(&Path) -> io::Result<()>,
    ) -> Result<(), String> {
        let part = self.folder.join(format!("{}{worker}{}", PART.0, PART.1));
        let written = write(&part).and_then(|()| fs::rename(&part, self.folder.join(name)));
        written.map_err(|error| {
            // What could not be removed either is overwritten the next time.
            let _ = fs::remove_file(&part);
            self.not_written(name, &error)
        })
    }

    fn not_written(&self, name: &OsStr, error: &io::Error) -> String {
        let path = self.folder.join(name);
        format!(
            "the file '{}' could not be written: {error}",
            path.display()
        )
    }
}

/// Whether a run over these streams may have left this: by its name, and by how it begins.
fn ours(entry: &DirEntry, streams: &Streams) -> io::Result<bool> {
    let name = entry.file_name();
    let (start, end) = PART;
    let bytes = name.as_bytes();
    if bytes.starts_with(start.as_bytes()) && bytes.ends_with(end.as_bytes()) {
        return Ok(true);
    }
    if !entry.file_type()?.is_file() {
        return Ok(false);
    }
    let named = |ending: &str| streams.named(&name, ending);
    if let Some(of) = named(STREAM).filter(|_| streams.pages) {
        return is_copy(&entry.path(), &streams.dir.join(file_of(of, STREAM)));
    }
    let begins: &[&str] = if named(TABLE).is_some() {
        &[table::HEADING, "refused "]
    } else if named(CERTIFICATE).is_some() {
        &[certificate::HEADING]
    } else if name == SUMMARY {
        &[summary::BEGINS]
    } else if streams.pages && (name == INDEX || named(PAGE).is_some()) {
        &[pages::BEGINS]
    } else if streams.pages && name == pages::REFEREE {
        &[pages::REFEREE_BEGINS]
    } else {
        return Ok(false);
    };
    let longest = begins.iter().map(|begin| begin.len()).max().unwrap_or(0);
    let mut found = Vec::new();
    File::open(entry.path())?
        .take(longest as u64)
        .read_to_end(&mut found)?;
    Ok(begins
        .iter()
        .any(|begin| found.starts_with(begin.as_bytes())))
}

/// Whether a file is a stream's copy: as the stream is now, or as it was for the page beside it.
fn is_copy(copy: &Path, of: &Path) -> io::Result<bool> {
    let digest = stream::digest(copy)?;
    if stream::digest(of).is_ok_and(|now| now == digest) {
        return Ok(true);
    }
    let page = fs::read_to_string(copy.with_extension(PAGE));
    Ok(page.is_ok_and(|page| page.starts_with(pages::BEGINS) && page.contains(&digest)))
}
