//! Folders of pages from run to run: the same bytes again, what changes, what is verified, and what is
//! left alone.

use std::fs;

use tests_program::samples::bytes;
use tests_program::stage::Stage;

use super::page_reader::pages;
use super::{names, read, script};

const PAGES: [&str; 3] = ["--pages", "streams", "tables"];
const VERIFY: [&str; 4] = ["--pages", "--verify", "streams", "tables"];

/// A folder's files and their bytes.
fn files(stage: &Stage, folder: &str) -> Vec<(String, Vec<u8>)> {
    let read = |name: &String| fs::read(stage.path(folder).join(name)).expect("a file");
    let names = names(stage, folder);
    names
        .iter()
        .map(|name| (name.clone(), read(name)))
        .collect()
}

#[test]
fn two_runs_write_the_same_bytes() {
    let stage = script().stage;
    assert_eq!(stage.run(&PAGES).status, Some(3));
    let first = files(&stage, "tables");
    assert_eq!(stage.run(&PAGES).status, Some(3));
    assert_eq!(files(&stage, "tables"), first);
    // Wherever streams and tables are, and out of what the first run has left.
    assert_eq!(
        stage.run(&["--pages", "tables", "else/where"]).status,
        Some(3)
    );
    assert_eq!(files(&stage, "else/where"), first);
    assert_eq!(stage.run(&["streams", "plain"]).status, Some(3));
    let plain = files(&stage, "plain");
    assert!(plain.iter().all(|file| first.contains(file)));
    let others: Vec<&str> = first
        .iter()
        .filter(|file| !plain.contains(file))
        .map(|(name, _)| &**name)
        .collect();
    let endings = |ending: &str| others.iter().filter(|name| name.ends_with(ending)).count();
    assert_eq!(
        (others.len(), endings(".html"), endings(".stream")),
        (14, 7, 6)
    );
    assert!(others.contains(&"index.html") && others.contains(&"referee.py"));
}

#[test]
fn a_stream_that_changes_has_another_page() {
    let stage = script().stage;
    assert_eq!(stage.run(&PAGES).status, Some(3));
    let before = read(&stage, "tables/index.html");
    for sample in ["delay-only", "refused", "bella"] {
        let stream = stage.path("streams/bella.stream");
        fs::write(&stream, bytes(sample, "stream")).expect("a stream");
        let differs = stage.run(&VERIFY);
        assert_eq!(differs.status, Some(3));
        assert!(
            differs.out.contains("\nbella.stream differs\n"),
            "{differs:?}"
        );
        assert_eq!(stage.run(&PAGES).status, Some(3), "{sample}");
        let copy = fs::read(stage.path("tables/bella.stream")).expect("a copy");
        assert_eq!(copy, bytes(sample, "stream"));
        assert_eq!(stage.run(&VERIFY).status, Some(0), "{sample}");
    }
    assert_eq!(read(&stage, "tables/index.html"), before);
}

#[test]
fn pages_are_verified() {
    let stage = script().stage;
    assert_eq!(stage.run(&PAGES).status, Some(3));
    let verify = |said: &str| {
        let ended = stage.run(&VERIFY);
        let status = if said.is_empty() { 0 } else { 3 };
        let counted = "0 of 6 tables differ\n4 of 4 certificates accepted by the proved checker\n";
        assert_eq!(
            (ended.status, ended.out),
            (Some(status), format!("{said}{counted}"))
        );
    };
    verify("");
    let page = read(&stage, "tables/bella.html");
    let line = 1 + page
        .lines()
        .position(|line| line.contains("id=\"slot-13\""))
        .expect("a row");
    stage.write(
        "tables/bella.html",
        &page.replace("88 by slot 13: 0", "89 by slot 13: 1"),
    );
    fs::remove_file(stage.path("tables/long.html")).expect("a page");
    fs::remove_file(stage.path("tables/long.stream")).expect("a copy");
    stage.write("tables/referee.py", "print('certified')\n");
    verify(&format!(
        "bella.html differs from line {line} on\nlong.html is missing\nlong.stream is missing\n\
         referee.py differs from line 1 on\n"
    ));
    assert_eq!(
        stage
            .run(&["--pages", "--replace", "streams", "tables"])
            .status,
        Some(3)
    );
    verify("");
    // Without --pages no page is looked at.
    stage.write("tables/index.html", "mine");
    let tables = stage.run(&["--verify", "streams", "tables"]);
    assert_eq!(tables.status, Some(0));
    verify("index.html differs from line 1 on\n");
}

#[test]
fn pages_of_others_are_left_alone() {
    let stage = script().stage;
    let other = "which is none of these tables; --replace writes there";
    for (name, text) in [
        ("tables/index.html", "<!DOCTYPE html>\n<html lang=\"en\">\n"),
        ("tables/bella.html", "my own page"),
        ("tables/other.html", "another page"),
        ("tables/bella.stream", "my own stream"),
        ("tables/referee.py", "my own referee"),
    ] {
        stage.write(name, text);
        stage.run(&PAGES).check_problem(1, other);
        assert_eq!(
            (names(&stage, "tables").len(), &*read(&stage, name)),
            (1, text)
        );
        fs::remove_file(stage.path(name)).expect("a file");
    }
    // A stream that no page of ours has told of.
    assert_eq!(stage.run(&PAGES).status, Some(3));
    let copy = read(&stage, "tables/bella.html");
    stage.write("tables/bella.stream", "my own stream");
    stage.run(&PAGES).check_problem(1, other);
    assert_eq!(read(&stage, "tables/bella.stream"), "my own stream");
    assert_eq!(read(&stage, "tables/bella.html"), copy);
    let replaced = stage.run(&["--pages", "--replace", "streams", "tables"]);
    assert_eq!(replaced.status, Some(3));
    // Tables alone would leave pages that tell of others.
    stage.run(&["streams", "tables"]).check_problem(1, other);
    // The streams' own folder.
    let own = stage.run(&["--pages", "--replace", "streams", "streams"]);
    assert_eq!(own.status, Some(3), "{own:?}");
    assert_eq!(files(&stage, "streams"), files(&stage, "tables"));
    assert_eq!(
        stage.run(&["--pages", "streams", "streams"]).status,
        Some(3)
    );
}

#[test]
fn no_stream_and_only_refused_ones() {
    let stage = script().stage;
    stage
        .run(&["--pages", "scripts", "none"])
        .check_problem(1, "no stream file in 'scripts'");
    assert!(!stage.path("none").exists());
    stage.write("two/a.stream", "");
    stage.write("two/b.stream", "nineteen bytes, yes");
    fs::write(stage.path("two/long.stream"), [7; 200_000]).expect("a stream");
    let ended = stage.run(&["--pages", "two", "refused"]);
    assert_eq!(ended.status, Some(3));
    let said = "refused 12: fewer than 20 bytes";
    assert_eq!(ended.err.matches(said).count(), 2, "{ended:?}");
    let long = fs::read(stage.path("refused/long.stream")).expect("a copy");
    assert!(long == [7; 200_000]);
    let index = read(&stage, "refused/index.html");
    assert_eq!(index.matches(said).count(), 2, "{index}");
    assert!(index.contains(">3 streams, 3 refused</th>"), "{index}");
    assert!(read(&stage, "refused/a.html").contains(&format!("The stream file is {said}.")));
    let verified = stage.run(&["--pages", "--verify", "two", "refused"]);
    let counted = "0 of 3 tables differ\n0 of 0 certificates accepted by the proved checker\n";
    assert_eq!((verified.status, &*verified.out), (Some(0), counted));
    assert_eq!(pages(&stage, "refused").len(), 4);
    // A stream whose page would be the index.
    stage.write("two/index.stream", "");
    let index = stage.run(&["--pages", "two", "other"]);
    index.check_problem(
        1,
        "the stream \"index\" would have the page that lists all streams",
    );
    assert_eq!(stage.run(&["two", "other"]).status, Some(3));
}
