//! The pages of a folder, read by a strict reader.

use std::collections::BTreeMap;
use std::fs;

use tests_program::stage::{Stage, repository};

use super::names;

const READER: &str = "rust/commands/tests/loss-tables/read_pages.py";

/// What a page's tables hold, by their captions, and its lines that are to be typed.
#[derive(Debug, Default)]
pub struct Page {
    pub tables: BTreeMap<String, Vec<Vec<String>>>,
    pub typed: Vec<String>,
}

impl Page {
    pub fn table(&self, begin: &str) -> &[Vec<String>] {
        let found = self.tables.iter().find(|(of, _)| of.starts_with(begin));
        found
            .map(|(_, rows)| &rows[..])
            .unwrap_or_else(|| panic!("{begin} in {self:?}"))
    }
}

/// The pages of a folder by their names, read strictly; and by tidy too, where that is there.
pub fn pages(stage: &Stage, folder: &str) -> BTreeMap<String, Page> {
    stage.lend_python();
    let mut reader = stage.system("python3");
    let ended = stage.ended(reader.arg(repository(READER)).arg(folder));
    ended.check_printed(&ended.out);
    let mut pages: BTreeMap<String, Page> = BTreeMap::new();
    let (mut name, mut caption) = (String::new(), String::new());
    for line in ended.out.lines() {
        let (word, rest) = line.split_once('\t').expect("two fields");
        let page = pages.entry(name.clone()).or_default();
        match word {
            "page" => name = rest.to_owned(),
            "typed" => page.typed.push(rest.to_owned()),
            "table" => {
                caption = rest.to_owned();
                page.tables.entry(caption.clone()).or_default();
            }
            _ => {
                let rows = page.tables.get_mut(&caption).expect("a table");
                rows.push(line.split('\t').map(String::from).collect());
            }
        }
    }
    pages.entry(name).or_default();
    pages.remove("");
    check_by_tidy(stage, folder);
    pages
}

fn check_by_tidy(stage: &Stage, folder: &str) {
    let there = stage.ended(stage.system("bash").args(["-c", "command -v tidy"]));
    for name in names(stage, folder)
        .iter()
        .filter(|name| name.ends_with(".html"))
    {
        let page = fs::metadata(stage.path(folder).join(name));
        if there.status == Some(0) && page.is_ok() {
            let mut tidy = stage.system("tidy");
            let ended = stage.ended(tidy.args(["-q", "-e"]).arg(format!("{folder}/{name}")));
            assert_eq!((ended.status, &*ended.err), (Some(0), ""), "{name}");
        }
    }
}
