//! `stream-text`: turns text into a stream file, and a stream file into text.

use std::fs;
use std::io::{self, Read, Write};
use std::process::ExitCode;

use reference::layout::StreamFile;

const USAGE: &str = "usage: stream-text write TEXT OUT.stream
       stream-text read IN.stream
A `-` stands for standard input or output.";

fn main() -> ExitCode {
    let arguments: Vec<String> = std::env::args().skip(1).collect();
    let words: Vec<&str> = arguments.iter().map(String::as_str).collect();
    let done = match words[..] {
        ["write", text, stream] => write(text, stream),
        ["read", stream] => read(stream),
        _ => Err(String::from(USAGE)),
    };
    match done {
        Ok(()) => ExitCode::SUCCESS,
        Err(problem) => {
            eprintln!("{problem}");
            ExitCode::FAILURE
        }
    }
}

fn write(text_path: &str, stream_path: &str) -> Result<(), String> {
    let bytes = take(text_path)?;
    let text = str::from_utf8(&bytes)
        .map_err(|error| format!("{text_path}: byte {}: no UTF-8 text", error.valid_up_to()))?;
    let file = streamtext::parse(text).map_err(|error| format!("{text_path}: {error}"))?;
    put(stream_path, &file.to_bytes())
}

fn read(stream_path: &str) -> Result<(), String> {
    let bytes = take(stream_path)?;
    let file = StreamFile::from_bytes(&bytes).map_err(|error| format!("{stream_path}: {error}"))?;
    put("-", streamtext::show(&file).as_bytes())
}

fn take(path: &str) -> Result<Vec<u8>, String> {
    let mut bytes = Vec::new();
    let taken = match path {
        "-" => io::stdin().read_to_end(&mut bytes).map(|_| bytes),
        _ => fs::read(path),
    };
    taken.map_err(|error| format!("{path}: {error}"))
}

fn put(path: &str, bytes: &[u8]) -> Result<(), String> {
    let done = match path {
        "-" => io::stdout().write_all(bytes),
        _ => fs::write(path, bytes),
    };
    done.map_err(|error| format!("{path}: {error}"))
}
