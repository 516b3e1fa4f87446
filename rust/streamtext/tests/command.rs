//! The `stream-text` command over standard input and output.

use std::io::Write;
use std::process::{Command, Output, Stdio};

const TEXT: &str = "table 0 2 3\ndelay 65\nbuffer none\nslots 4\n1 5\n3 4\n";

fn stream_text(arguments: &[&str], input: &[u8]) -> Output {
    let mut child = Command::new(env!("CARGO_BIN_EXE_stream-text"))
        .args(arguments)
        .stdin(Stdio::piped())
        .stdout(Stdio::piped())
        .stderr(Stdio::piped())
        .spawn()
        .expect("the command starts");
    let mut pipe = child.stdin.take().expect("a pipe");
    // A command that refuses its arguments ends before it reads.
    let _ = pipe.write_all(input);
    drop(pipe);
    child.wait_with_output().expect("the command ends")
}

fn problem(arguments: &[&str], input: &[u8]) -> String {
    let output = stream_text(arguments, input);
    assert!(!output.status.success());
    assert!(output.stdout.is_empty());
    String::from_utf8(output.stderr).expect("text")
}

#[test]
fn writes_a_refused_stream_and_reads_it_back() {
    let written = stream_text(&["write", "-", "-"], TEXT.as_bytes());
    assert!(written.status.success());
    assert_eq!(written.stdout.len(), 48);
    let read = stream_text(&["read", "-"], &written.stdout);
    assert_eq!(String::from_utf8(read.stdout).expect("text"), TEXT);
}

#[test]
fn names_the_line_or_the_byte() {
    let text = problem(&["write", "-", "-"], b"table 0 2\ndelay soon\n");
    assert!(text.starts_with("-: line 2: `soon`"), "{text}");
    let file = problem(&["read", "-"], &[0; 19]);
    assert!(file.starts_with("-: byte 19: "), "{file}");
    let no_text = problem(&["write", "-", "-"], b"table\xFF");
    assert!(no_text.starts_with("-: byte 5: "), "{no_text}");
    let no_file = problem(&["read", "no/such.stream"], b"");
    assert!(no_file.starts_with("no/such.stream: "), "{no_file}");
}

#[test]
fn says_how_it_is_used() {
    assert!(problem(&[], b"").starts_with("usage: stream-text write"));
    assert!(problem(&["write", "-"], b"").starts_with("usage: "));
}
