//! The folder of streams, and how files of a folder of tables are called.

use std::ffi::{OsStr, OsString};
use std::fs::{self, DirEntry};
use std::io;
use std::os::unix::ffi::{OsStrExt, OsStringExt};
use std::path::{Path, PathBuf};

/// What a stream's files are called, behind its name and a dot.
pub const STREAM: &str = "stream";
pub const TABLE: &str = "table";
pub const CERTIFICATE: &str = "certificate";
pub const PAGE: &str = "html";
/// Files of all streams.
pub const SUMMARY: &str = "summary.txt";
pub const INDEX: &str = "index.html";

pub fn file_of(name: &OsStr, ending: &str) -> OsString {
    [name, ".".as_ref(), ending.as_ref()].into_iter().collect()
}

/// The streams of a folder, and whether pages are written of them.
pub struct Streams {
    pub dir: PathBuf,
    pub names: Vec<OsString>,
    pub pages: bool,
}

impl Streams {
    /// The names NAME of the folder's files NAME.stream, in the order of their bytes. Those that begin
    /// with a dot are left out, as the shell leaves them out of *.stream.
    pub fn of(dir: &Path, pages: bool) -> Result<Streams, String> {
        let mut names: Vec<OsString> = entries(dir)?
            .iter()
            .map(|entry| entry.file_name().into_vec())
            .filter(|name| !name.starts_with(b"."))
            .filter_map(|name| Some(name.strip_suffix(b".stream")?.to_vec()))
            .map(OsString::from_vec)
            .collect();
        let breaks = |name: &&OsString| name.as_bytes().iter().any(|byte| b"\t\n".contains(byte));
        if let Some(name) = names.iter().find(breaks) {
            let said = "has a tab or a line feed in its name, which the summary cannot tell";
            return Err(format!("the stream {name:?} {said}"));
        }
        if let Some(name) = names
            .iter()
            .find(|name| pages && file_of(name, PAGE) == INDEX)
        {
            let said = "would have the page that lists all streams";
            return Err(format!("the stream {name:?} {said}"));
        }
        if names.is_empty() {
            return Err(format!("no stream file in '{}'", dir.display()));
        }
        names.sort();
        Ok(Streams {
            dir: dir.to_owned(),
            names,
            pages,
        })
    }

    /// The stream, if any, whose file of this ending is called so.
    pub fn named(&self, file: &OsStr, ending: &str) -> Option<&OsStr> {
        let stem = file.as_bytes().strip_suffix(ending.as_bytes())?;
        let stem = stem.strip_suffix(b".")?;
        let place = self
            .names
            .binary_search_by(|name| name.as_bytes().cmp(stem));
        place.ok().map(|place| &*self.names[place])
    }
}

pub fn entries(dir: &Path) -> Result<Vec<DirEntry>, String> {
    let found = fs::read_dir(dir).and_then(Iterator::collect);
    found.map_err(|error| format!("the folder '{}' could not be read: {error}", dir.display()))
}

pub fn not_read(path: &Path, error: &io::Error) -> String {
    format!("the file '{}' could not be read: {error}", path.display())
}
