//! A stream's files with their digests, how to check them, and how to cite them.

use std::ffi::{OsStr, OsString};
use std::os::unix::ffi::OsStrExt;

use commands::certificate;
use commands::markup::{can_stand, escaped};

use super::super::folder::{CERTIFICATE, STREAM, TABLE, file_of};
use super::super::stream::{Accepted, Worked};
use super::super::summary::Counts;
use super::html::{headings, linked, shown_name, wide};
use super::words::counted;
use super::{REFEREE, REFEREE_TEXT};

/// The check of all files by ours. The streams stand in the same folder.
pub const VERIFY: &str = "bin/loss-tables --pages --verify EDITION EDITION";

/// Files of this folder and their digests.
pub fn files(files: &[(impl AsRef<OsStr>, String)]) -> String {
    let row = |(file, digest): &(_, String)| {
        let file = linked(AsRef::as_ref(file));
        format!(
            "<tr><th scope=\"row\" class=\"words\">{file}</th><td class=\"digest\">{digest}</td></tr>\n"
        )
    };
    let rows: String = files.iter().map(row).collect();
    let caption = "Files and their SHA-256";
    let columns = [("words", "file"), ("words", "SHA-256")];
    let table = format!(
        "<table class=\"files\">\n<caption>{caption}</caption>\n{}<tbody>\n{rows}</tbody>\n</table>\n",
        headings(&columns)
    );
    wide(caption, &table)
}

/// A stream's files.
fn digests(worked: &Worked) -> Vec<(&'static str, String)> {
    let certified = worked.certified();
    let certificate = certified.map(|of| (CERTIFICATE, of.text.digest.clone()));
    [
        Some((STREAM, worked.digest.clone())),
        Some((TABLE, worked.table.digest.clone())),
        certificate,
    ]
    .into_iter()
    .flatten()
    .collect()
}

/// The section on files.
pub fn files_of(worked: &Worked) -> String {
    let named: Vec<(OsString, String)> = digests(worked)
        .into_iter()
        .map(|(ending, digest)| (file_of(&worked.name, ending), digest))
        .collect();
    format!("<h2 id=\"files\">Files</h2>\n{}", files(&named))
}

/// The section on checks.
pub fn check(worked: &Worked) -> String {
    let without = worked.accepted().and_then(|of| without_us(worked, of));
    format!(
        "<h2 id=\"check\">How to check it</h2>\n{}\
         <p>With us, in the folder of Bezhantiru, EDITION being the folder of this page: every file is made \
         anew and compared, and the proved checker holds each table to its certificate.</p>\n{}",
        without.unwrap_or_default(),
        printed(VERIFY)
    )
}

/// The referee's check, and what it prints.
fn without_us(worked: &Worked, accepted: &Accepted) -> Option<String> {
    let certified = accepted.certified.as_ref()?;
    let files = [STREAM, TABLE, CERTIFICATE].map(|ending| quoted(&file_of(&worked.name, ending)));
    let command = format!("python3 {REFEREE} {}", files.join(" "));
    let verdict = certificate::words(certified.found.certified(), accepted.rows.len());
    Some(format!(
        "<p>Without us, in the folder of this page: {} holds table and certificate to the stream by \
         additions and comparisons alone. It is {} lines of Python 3.9 that need nothing else, and prints \
         the second line.</p>\n{}",
        linked(REFEREE.as_ref()),
        REFEREE_TEXT.lines().count(),
        printed(&format!("{command}\n{}", verdict.trim_end()))
    ))
}

fn printed(text: &str) -> String {
    let lines: Vec<String> = text.lines().map(escaped).collect();
    format!("<pre><code>{}</code></pre>\n", lines.join("\n"))
}

/// A file of this folder as a shell takes it.
fn quoted(file: &OsStr) -> String {
    let bytes = file.as_bytes();
    let plain = |byte: &u8| byte.is_ascii_alphanumeric() || b"-._".contains(byte);
    let here = if bytes.starts_with(b"-") { "./" } else { "" };
    match file.to_str() {
        Some(name) if bytes.iter().all(plain) => format!("{here}{name}"),
        Some(name) if name.chars().all(can_stand) => {
            format!("'{here}{}'", name.replace('\'', "'\\''"))
        }
        _ => {
            let byte = |byte: &u8| match byte {
                byte if plain(byte) => char::from(*byte).to_string(),
                byte => format!("\\x{byte:02x}"),
            };
            format!("$'{here}{}'", bytes.iter().map(byte).collect::<String>())
        }
    }
}

/// The section on citing.
pub fn cite(worked: &Worked, accepted: &Accepted) -> String {
    let counts = Counts::of(&accepted.rows);
    let sums = format!(
        "{}, {} arrived, {} lost",
        counted(counts.slots, "slot"),
        counted(counts.arrived, "packet"),
        counts.dropped
    );
    let name = shown_name(&worked.name);
    let digests: Vec<String> = digests(worked)
        .iter()
        .map(|(ending, digest)| format!("{ending} {digest}"))
        .collect();
    let entry = format!(
        "@misc{{{},\n  author = {{{{Bezhantiru}}}},\n  title = {{Loss table of the stream {{{}}}}},\n  \
         note = {{{sums}. SHA-256:\n          {}}}\n}}",
        key(&name, &worked.table.digest),
        tex(&name),
        digests.join(",\n          ")
    );
    format!("<h2 id=\"cite\">How to cite it</h2>\n{}", printed(&entry))
}

/// A name for BibTeX that no other table has.
fn key(name: &str, digest: &str) -> String {
    let letters = name.chars().filter(char::is_ascii_alphanumeric);
    format!("loss-{}-{}", letters.collect::<String>(), &digest[..8])
}

/// A name as TeX prints it.
fn tex(name: &str) -> String {
    let sign = |sign: char| match sign {
        '&' | '%' | '$' | '#' | '_' => format!("\\{sign}"),
        '{' => String::from("\\textbraceleft{}"),
        '}' => String::from("\\textbraceright{}"),
        '\\' => String::from("\\textbackslash{}"),
        '~' => String::from("\\textasciitilde{}"),
        '^' => String::from("\\textasciicircum{}"),
        '<' => String::from("\\textless{}"),
        '>' => String::from("\\textgreater{}"),
        _ => sign.to_string(),
    };
    name.chars().map(sign).collect()
}
