//! One stream file: its table by the proved program, its certificate by the library, and their digests.

use std::ffi::{OsStr, OsString};
use std::fs::File;
use std::io::{self, Read, Write};
use std::path::Path;

use bezhantiru::Refusal;
use commands::certificate::Certificate;
use commands::table::{Row, Table, print};
use commands::{MOST_BYTES, accepted};
use reference::layout::StreamFile;

use super::folder::{STREAM, file_of};
use super::sha256::Sha256;

/// A stream that is worked.
pub struct Worked {
    pub name: OsString,
    /// As many of the file's bytes as decide anything, and the digest of all.
    pub bytes: Vec<u8>,
    pub digest: String,
    pub table: Text,
    pub told: Told,
}

/// What is written, and its digest.
pub struct Text {
    pub bytes: Vec<u8>,
    pub digest: String,
}

impl Text {
    fn of(bytes: Vec<u8>) -> Text {
        let digest = Sha256::of(&bytes);
        Text { bytes, digest }
    }
}

/// What a table tells of its stream.
pub enum Told {
    Refused(Refusal),
    Of(Accepted),
}

/// An accepted stream, and its table's rows.
pub struct Accepted {
    pub file: StreamFile,
    pub rows: Vec<Row>,
    /// None where both limits are none.
    pub certified: Option<Certified>,
}

/// A certificate, as it is found and in print.
pub struct Certified {
    pub found: Certificate,
    pub text: Text,
}

impl Worked {
    pub fn accepted(&self) -> Option<&Accepted> {
        match &self.told {
            Told::Of(accepted) => Some(accepted),
            Told::Refused(_) => None,
        }
    }

    pub fn certified(&self) -> Option<&Certified> {
        self.accepted()?.certified.as_ref()
    }
}

/// The stream of a name, or what is wrong with it.
pub fn work(program: &Path, dir: &Path, name: &OsStr) -> Result<Worked, String> {
    let path = dir.join(file_of(name, STREAM));
    let shown = path.display();
    let (bytes, digest) =
        read(&path).map_err(|error| format!("the file '{shown}' could not be read: {error}"))?;
    let (table, read) = print(program, &bytes)
        .map_err(|wrong| format!("the file '{shown}' has no table: {wrong}"))?;
    let told = match read {
        Table::Refused(refusal) => Told::Refused(refusal),
        Table::Of(rows) => Told::Of(Accepted::of(&bytes, rows).map_err(|refusal| {
            format!("the file '{shown}' has a table, but the library says {refusal}")
        })?),
    };
    Ok(Worked {
        name: name.to_owned(),
        bytes,
        digest,
        table: Text::of(table),
        told,
    })
}

impl Accepted {
    fn of(bytes: &[u8], rows: Vec<Row>) -> Result<Accepted, Refusal> {
        let certified = match Certificate::of_file(bytes) {
            Ok(found) => Some(Certified {
                text: Text::of(found.to_string().into_bytes()),
                found,
            }),
            Err(Refusal::BothLimitsNone) => None,
            Err(refusal) => return Err(refusal),
        };
        Ok(Accepted {
            file: accepted(bytes)?,
            rows,
            certified,
        })
    }
}

/// As many of a file's bytes as decide anything, and the digest of all.
fn read(path: &Path) -> io::Result<(Vec<u8>, String)> {
    let mut file = File::open(path)?;
    if !file.metadata()?.is_file() {
        return Err(io::Error::other("it is no file"));
    }
    let mut bytes = Vec::new();
    (&mut file).take(MOST_BYTES).read_to_end(&mut bytes)?;
    let mut digest = Sha256::new();
    digest.write_all(&bytes)?;
    io::copy(&mut file, &mut digest)?;
    Ok((bytes, digest.finish()))
}

/// The digest of a whole file.
pub fn digest(path: &Path) -> io::Result<String> {
    read(path).map(|(_, digest)| digest)
}
