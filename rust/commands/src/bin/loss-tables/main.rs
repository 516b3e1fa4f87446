//! The loss tables of all stream files of a folder, their certificates, a summary, and pages to read them
//! on. The proved program prints the tables, the proved library finds and checks the certificates; what
//! summary and pages say of a stream is read in both.
//!
//!     loss-tables PROGRAM write|replace|verify tables|pages DIR OUT

mod folder;
mod out;
mod pages;
mod sha256;
mod stream;
mod summary;
mod turns;
mod verify;

use std::borrow::Cow;
use std::ffi::{OsStr, OsString};
use std::path::Path;
use std::process::ExitCode;

use commands::{Answer, NO, Problem, Program, arguments};
use folder::{CERTIFICATE, INDEX, PAGE, STREAM, SUMMARY, Streams, TABLE, file_of};
use out::Out;
use stream::{Told, Worked};
use verify::Verified;

const LOSS_TABLES: Program = Program("loss-tables");

fn main() -> ExitCode {
    LOSS_TABLES.answer(done())
}

fn done() -> Result<Answer, Problem> {
    let words = "the program, a way, tables or pages, and two folders";
    let [program, way, what, dir, out] = arguments(words)?;
    let pages = match what.to_str() {
        Some("tables") => false,
        Some("pages") => true,
        _ => return Err(Problem::wrong_usage("tables or pages are made")),
    };
    let streams = Streams::of(dir.as_ref(), pages).map_err(Problem::no_answer)?;
    let work = |name: &OsStr| stream::work(program.as_ref(), &streams.dir, name);
    let out: &Path = out.as_ref();
    match way.to_str() {
        Some("write") => write(Out::open(out, &streams, false), &streams, work),
        Some("replace") => write(Out::open(out, &streams, true), &streams, work),
        Some("verify") => verify(out, &streams, work),
        _ => Err(Problem::wrong_usage("the way is write, replace or verify")),
    }
}

/// A file's name and what it holds; none where there has to be no such file.
type Wanted<'a> = (OsString, Option<Cow<'a, [u8]>>);

/// The files that tell of a stream.
fn files(worked: &Worked, pages: bool) -> Result<Vec<Wanted<'_>>, String> {
    let of = |ending: &str| file_of(&worked.name, ending);
    let certificate = worked.certified().map(|of| Cow::from(&of.text.bytes));
    let mut files = vec![
        (of(TABLE), Some(Cow::from(&worked.table.bytes))),
        (of(CERTIFICATE), certificate),
    ];
    if pages {
        let page = pages::of_stream(worked).map_err(|refusal| {
            let stream = of(STREAM);
            format!("the stream '{}' has no page: {refusal}", stream.display())
        })?;
        files.push((of(PAGE), Some(page.into_bytes().into())));
    }
    Ok(files)
}

/// What the files of all streams tell of one.
struct Brief {
    line: Vec<u8>,
    /// What is said of a refused stream.
    refused: Option<String>,
    entry: pages::Entry,
}

impl Brief {
    fn of(worked: &Worked, streams: &Streams) -> Brief {
        let refused = match &worked.told {
            Told::Of(_) => None,
            Told::Refused(refusal) => {
                let path = streams.dir.join(file_of(&worked.name, STREAM));
                Some(format!("the file '{}': {refusal}", path.display()))
            }
        };
        Brief {
            line: summary::line(worked),
            refused,
            entry: pages::Entry::of(worked),
        }
    }
}

/// The files that tell of all streams, the summary last.
fn closing_files(briefs: &[Brief], pages: bool) -> Vec<(&'static OsStr, Vec<u8>)> {
    let summary = summary::summary(briefs.iter().map(|brief| &*brief.line));
    let mut files = Vec::new();
    if pages {
        let entries: Vec<&pages::Entry> = briefs.iter().map(|brief| &brief.entry).collect();
        let index = pages::index(&entries, &summary);
        files.push((OsStr::new(pages::REFEREE), pages::REFEREE_TEXT.into()));
        files.push((OsStr::new(INDEX), index.into_bytes()));
    }
    files.push((OsStr::new(SUMMARY), summary));
    files
}

/// Every table with its certificate and, where pages are asked for, its page and a copy of its stream; at
/// last the summary; then each refused stream is named. While tables are written there is neither summary
/// nor index, which might tell of others. Where a stream could not be worked they stay away, and the
/// others have their tables.
fn write(
    out: Result<Out, String>,
    streams: &Streams,
    work: impl Fn(&OsStr) -> Result<Worked, String> + Sync,
) -> Result<Answer, Problem> {
    let out = out.map_err(Problem::no_answer)?;
    let remove = |file: &str| out.remove(file.as_ref()).map_err(Problem::no_answer);
    remove(SUMMARY)?;
    if streams.pages {
        remove(INDEX)?;
    }
    let briefs = turns::take(&streams.names, |worker, name| {
        let worked = work(name)?;
        if streams.pages {
            let file = file_of(name, STREAM);
            out.copy(worker, &file, &streams.dir.join(&file), &worked.digest)?;
        }
        for (file, bytes) in files(&worked, streams.pages)? {
            match bytes {
                Some(bytes) => out.put(worker, &file, &bytes)?,
                None => out.remove(&file)?,
            }
        }
        Ok(Brief::of(&worked, streams))
    });
    let briefs = all(briefs)?;
    for (file, bytes) in closing_files(&briefs, streams.pages) {
        out.put(0, file, &bytes).map_err(Problem::no_answer)?;
    }
    let refused: Vec<String> = briefs
        .into_iter()
        .filter_map(|brief| brief.refused)
        .collect();
    if refused.is_empty() {
        Ok(Answer::from(String::new()))
    } else {
        let said = lines_of(&refused);
        Err(Problem { said, status: NO })
    }
}

/// A line for each file that is not what it has to be, and for each table or certificate that the proved
/// checker does not accept. Nothing is written to the folder.
fn verify(
    out: &Path,
    streams: &Streams,
    work: impl Fn(&OsStr) -> Result<Worked, String> + Sync,
) -> Result<Answer, Problem> {
    let found = turns::take(&streams.names, |_, name| {
        let worked = work(name)?;
        let files = files(&worked, streams.pages)?;
        let verified = Verified::of(out, &worked, &files, streams.pages)?;
        Ok((Brief::of(&worked, streams), verified))
    });
    let (briefs, found): (Vec<Brief>, Vec<Verified>) = all(found)?.into_iter().unzip();
    let mut said: Vec<String> = found.iter().flat_map(|of| of.said.clone()).collect();
    for (file, wanted) in closing_files(&briefs, streams.pages) {
        let differs = verify::difference(out, file, Some(&wanted));
        said.extend(differs.map_err(Problem::no_answer)?);
    }
    let status = if said.is_empty() { 0 } else { NO };
    said.extend(verify::counted(&found));
    Ok(Answer {
        text: said.join("\n") + "\n",
        status,
    })
}

/// What came of all streams, or what is wrong with those that could not be worked, each in a line.
fn all<T>(found: Vec<Result<T, String>>) -> Result<Vec<T>, Problem> {
    let (done, wrong): (Vec<_>, Vec<_>) = found.into_iter().partition(Result::is_ok);
    let wrong: Vec<String> = wrong.into_iter().filter_map(Result::err).collect();
    if wrong.is_empty() {
        Ok(done.into_iter().filter_map(Result::ok).collect())
    } else {
        Err(Problem::no_answer(lines_of(&wrong)))
    }
}

/// What is said of several streams, a line each.
fn lines_of(said: &[String]) -> String {
    said.join(&format!("\n{}: ", LOSS_TABLES.0))
}
