//! From text to the numbers of a stream file. Numbers are taken as they are: what the regulator
//! refuses can be written too.

use std::fmt;

use reference::layout::{Header, NO_BUFFER, NO_DELAY, StreamFile};

/// What is wrong, and in which line, counted from 1.
#[derive(Clone, Debug, PartialEq, Eq)]
pub struct TextError {
    pub line: usize,
    pub problem: String,
}

impl fmt::Display for TextError {
    fn fmt(&self, out: &mut fmt::Formatter<'_>) -> fmt::Result {
        write!(out, "line {}: {}", self.line, self.problem)
    }
}

impl std::error::Error for TextError {}

/// The stream file that the text describes.
pub fn parse(text: &str) -> Result<StreamFile, TextError> {
    let mut draft = Draft::default();
    let mut line = 0;
    for content in text.lines() {
        line += 1;
        let words = words_before_comment(content);
        let taken = draft.take(&words);
        taken.map_err(|problem| TextError { line, problem })?;
    }
    let line = line + 1;
    let finished = draft.finish();
    finished.map_err(|problem| TextError { line, problem })
}

fn words_before_comment(line: &str) -> Vec<&str> {
    let end = line.find('#').unwrap_or(line.len());
    line[..end].split_whitespace().collect()
}

/// What the lines so far have said.
#[derive(Default)]
struct Draft {
    table: Option<Vec<u32>>,
    delay: Option<u32>,
    buffer: Option<u32>,
    slots: Option<u32>,
    burst_slots: Vec<u32>,
    burst_counts: Vec<u32>,
}

impl Draft {
    fn take(&mut self, words: &[&str]) -> Result<(), String> {
        match words {
            [] => Ok(()),
            ["table"] => Err("a table needs its entry for window 0 at least".into()),
            ["table", entries @ ..] => once("table", &mut self.table, numbers(entries)?),
            ["delay", limit] => once("delay", &mut self.delay, limit_or(NO_DELAY, limit)?),
            ["buffer", limit] => once("buffer", &mut self.buffer, limit_or(NO_BUFFER, limit)?),
            ["slots", slots] => once("slots", &mut self.slots, number(slots)?),
            ["delay" | "buffer" | "slots", ..] => Err(format!("`{}` takes one number", words[0])),
            [slot, count] => self.take_burst(slot, count),
            _ => Err(format!("`{}` starts no line of this form", words[0])),
        }
    }

    fn take_burst(&mut self, slot: &str, count: &str) -> Result<(), String> {
        self.burst_slots.push(number(slot)?);
        self.burst_counts.push(number(count)?);
        Ok(())
    }

    fn finish(self) -> Result<StreamFile, String> {
        let table = self.table.ok_or_else(|| missing("table"))?;
        let header = Header {
            last_window: size(table.len() - 1)?,
            slots: self.slots.ok_or_else(|| missing("slots"))?,
            bursts: size(self.burst_slots.len())?,
            delay: self.delay.ok_or_else(|| missing("delay"))?,
            buffer: self.buffer.ok_or_else(|| missing("buffer"))?,
        };
        Ok(StreamFile {
            header,
            table,
            burst_slots: self.burst_slots,
            burst_counts: self.burst_counts,
        })
    }
}

fn once<T>(name: &str, place: &mut Option<T>, value: T) -> Result<(), String> {
    match place.replace(value) {
        None => Ok(()),
        Some(_) => Err(format!("`{name}` stands here a second time")),
    }
}

fn missing(name: &str) -> String {
    format!("the text ends without a `{name}` line")
}

fn size(count: usize) -> Result<u32, String> {
    u32::try_from(count).map_err(|_| format!("{count} is more than a file can count"))
}

fn limit_or(none: u32, word: &str) -> Result<u32, String> {
    if word == "none" {
        Ok(none)
    } else {
        number(word)
    }
}

fn numbers(words: &[&str]) -> Result<Vec<u32>, String> {
    words.iter().map(|word| number(word)).collect()
}

/// Digits alone: a sign is no part of a count.
fn number(word: &str) -> Result<u32, String> {
    let digits = word.bytes().all(|byte| byte.is_ascii_digit());
    let value = word.parse().ok().filter(|_| digits);
    value.ok_or_else(|| format!("`{word}` is no whole number from 0 to {}", u32::MAX))
}
