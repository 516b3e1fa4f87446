//! A folder of tables held to its streams: each file to what it has to be, byte for byte, and each table
//! to its certificate by the proved checker.

use std::ffi::OsStr;
use std::fs::{self, File};
use std::io::{ErrorKind, Read};
use std::path::Path;

use commands::certificate::{MOST_BYTES, Stream, Table, verdict};

use super::Wanted;
use super::folder::{CERTIFICATE, STREAM, TABLE, file_of, not_read};
use super::stream::{Worked, digest};

/// What is said of a stream's files.
pub struct Verified {
    /// A line for each that differs or is not accepted.
    pub said: Vec<String>,
    table_differs: bool,
    /// Whether the checker accepts table and certificate, where there has to be one.
    accepted: Option<bool>,
}

impl Verified {
    /// Files that are the stream's, of which the first is its table.
    pub fn of(
        out: &Path,
        worked: &Worked,
        files: &[Wanted<'_>],
        pages: bool,
    ) -> Result<Verified, String> {
        let mut said = Vec::new();
        let mut table_differs = false;
        for (place, (file, wanted)) in files.iter().enumerate() {
            let differs = difference(out, file, wanted.as_deref())?;
            table_differs |= place == 0 && differs.is_some();
            said.extend(differs);
        }
        if pages {
            said.extend(copy_difference(out, worked)?);
        }
        let accepted = worked.certified().map(|_| match objection(out, worked) {
            Ok(()) => true,
            Err(wrong) => {
                said.extend(wrong);
                false
            }
        });
        Ok(Verified {
            said,
            table_differs,
            accepted,
        })
    }
}

/// How many tables differ, and how many certificates are accepted.
pub fn counted(found: &[Verified]) -> [String; 2] {
    let differ = found.iter().filter(|of| of.table_differs).count();
    let checked: Vec<bool> = found.iter().filter_map(|of| of.accepted).collect();
    let accepted = checked.iter().filter(|accepted| **accepted).count();
    let (tables, certificates) = (found.len(), checked.len());
    [
        format!("{differ} of {tables} tables differ"),
        format!("{accepted} of {certificates} certificates accepted by the proved checker"),
    ]
}

/// How a folder's file differs from what it has to hold, if it does; none where there has to be no file.
pub fn difference(
    out: &Path,
    name: &OsStr,
    wanted: Option<&[u8]>,
) -> Result<Option<String>, String> {
    let said = |what: &str| Ok(Some(format!("{} {what}", name.display())));
    match (fs::read(out.join(name)), wanted) {
        (Ok(found), Some(wanted)) if found == wanted => Ok(None),
        (Ok(found), Some(wanted)) => {
            let line = first_different_line(&found, wanted);
            said(&format!("differs from line {line} on"))
        }
        (Ok(_), None) => said("is there, and its stream has none"),
        (Err(error), wanted) if error.kind() == ErrorKind::NotFound => match wanted {
            Some(_) => said("is missing"),
            None => Ok(None),
        },
        (Err(error), _) => Err(not_read(&out.join(name), &error)),
    }
}

fn first_different_line(found: &[u8], wanted: &[u8]) -> usize {
    let lines = |bytes: &[u8]| -> Vec<Vec<u8>> {
        let lines = bytes.split(|byte| *byte == b'\n');
        lines.map(<[u8]>::to_vec).collect()
    };
    let (found, wanted) = (lines(found), lines(wanted));
    let alike = found.iter().zip(&wanted);
    1 + alike.take_while(|(found, wanted)| found == wanted).count()
}

/// The same for the copy of a stream, which has no lines.
fn copy_difference(out: &Path, worked: &Worked) -> Result<Option<String>, String> {
    let name = file_of(&worked.name, STREAM);
    let said = |what: &str| Ok(Some(format!("{} {what}", name.display())));
    match digest(&out.join(&name)) {
        Ok(found) if found == worked.digest => Ok(None),
        Ok(_) => said("differs"),
        Err(error) if error.kind() == ErrorKind::NotFound => said("is missing"),
        Err(error) => Err(not_read(&out.join(&name), &error)),
    }
}

/// What the proved judge and checker find wrong with the table and the certificate that stand in the
/// folder, if anything. Files that are not there are said to be missing elsewhere.
fn objection(out: &Path, worked: &Worked) -> Result<(), Option<String>> {
    let text = |ending: &str| read(&out.join(file_of(&worked.name, ending))).ok_or(None);
    let said = |ending: &str, wrong: String| {
        Some(format!(
            "{}: {wrong}",
            file_of(&worked.name, ending).display()
        ))
    };
    let stream =
        Stream::read(&worked.bytes).map_err(|refusal| said(STREAM, refusal.to_string()))?;
    let table = Table::read(&text(TABLE)?, &stream).map_err(|wrong| said(TABLE, wrong))?;
    let checked = verdict(&text(CERTIFICATE)?, &stream, &table);
    checked.map(drop).map_err(|wrong| said(CERTIFICATE, wrong))
}

/// As many of a file's bytes as decide anything.
fn read(path: &Path) -> Option<Vec<u8>> {
    let mut bytes = Vec::new();
    let file = File::open(path).ok()?;
    file.take(MOST_BYTES).read_to_end(&mut bytes).ok()?;
    Some(bytes)
}
