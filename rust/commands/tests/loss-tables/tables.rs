//! What is written: tables, summary, names and digests, progress, and how fast.

use std::ffi::OsStr;
use std::fs;
use std::os::unix::ffi::OsStrExt;
use std::thread;
use std::time::{Duration, Instant};

use reference::layout::{NO_BUFFER, NO_DELAY, StreamFile};
use tests_program::dice::Dice;
use tests_program::draw;
use tests_program::samples::{SAMPLES, bytes};
use tests_program::stage::{Ended, PROGRAM, Stage, pass_time};

use super::sha256::Sha256;
use super::{ASKED, check_tables, digest, names, read, script};

const REFUSED: &str =
    "loss-tables: the file 'streams/refused.stream': refused 6: delay is neither 0 to 64 nor 255";

/// The lines of progress, and what follows them.
fn told_apart(ended: &Ended) -> (Vec<&str>, Vec<&str>) {
    let lines: Vec<&str> = ended.err.lines().collect();
    let is_progress = |line: &&&str| !line.starts_with("loss-tables: ");
    let (progress, rest) = lines.split_at(lines.iter().take_while(is_progress).count());
    (progress.to_vec(), rest.to_vec())
}

#[test]
fn digests() {
    for (bytes, wanted) in [
        (
            &b""[..],
            "e3b0c44298fc1c149afbf4c8996fb92427ae41e4649b934ca495991b7852b855",
        ),
        (
            b"abc",
            "ba7816bf8f01cfea414140de5dae2223b00361a396177a9cb410ff61f20015ad",
        ),
        (
            b"abcdbcdecdefdefgefghfghighijhijkijkljklmklmnlmnomnopnopq",
            "248d6a61d20638b8e5c026930c3e6039a33ce45964ff2167f6ecedd419db06c1",
        ),
        (
            &[b'a'; 1_000_000],
            "cdc76e5c9914fb9281a1c7e284d73e67f1809a48a497200e046d39ccc7112cd0",
        ),
    ] {
        assert_eq!(Sha256::of(bytes), wanted);
    }
    let stage = Stage::new("bin/loss-tables");
    for length in [1, 54, 55, 56, 63, 64, 65, 119, 120, 128] {
        let text = "x".repeat(length);
        stage.write("x", &text);
        assert_eq!(Sha256::of(text.as_bytes()), digest(&stage, "x"), "{length}");
    }
}

#[test]
fn tables_and_summary() {
    let stage = script().stage;
    // Table 0,2,3, no limits, arrivals 5,0,4: the regulator alone, held 3,2,4.
    let unlimited = StreamFile::of_arrivals(&[0, 2, 3], (NO_DELAY, NO_BUFFER), &[5, 0, 4]);
    fs::write(
        stage.path("streams/both marks.stream"),
        unlimited.to_bytes(),
    )
    .expect("a file");
    // The digest is that of the whole file, of which the program looks at the beginning.
    let longer = [bytes("bella", "stream"), vec![0; 200_000]].concat();
    fs::write(stage.path("streams/Übung.stream"), longer).expect("a file");
    let ended = stage.run(&ASKED);
    assert_eq!((ended.status, &*ended.out), (Some(3), ""), "{ended:?}");
    check_tables(&stage);
    let summary = read(&stage, "tables/summary.txt");
    assert!(
        summary.contains("\nboth marks\t3\t9\t9\t0\t5\t4\t6\t"),
        "{summary}"
    );
    let refused = "\nrefused\trefused 6: delay is neither 0 to 64 nor 255\t-\t-\t-\t-\t-\t-\t";
    assert!(summary.contains(refused), "{summary}");
    for sample in SAMPLES {
        let table = fs::read(stage.path(&format!("tables/{sample}.table"))).expect("a table");
        assert_eq!(table, bytes(sample, "table"));
    }
    // Progress, in the order in which streams were done.
    let all = format!("/{} ", SAMPLES.len() + 2);
    let (mut told, _) = told_apart(&ended);
    for (place, line) in told.iter_mut().enumerate() {
        let (done, name) = line.split_once(&all).expect("progress");
        assert_eq!(done, (place + 1).to_string());
        *line = name;
    }
    told.sort();
    let mut streams = [&SAMPLES[..], &["both marks", "Übung"]].concat();
    streams.sort();
    assert_eq!(told, streams);
}

#[test]
fn each_refused_stream_is_named_at_the_end() {
    let stage = script().stage;
    for (name, text) in [("empty", ""), ("short", "nineteen bytes, yes")] {
        stage.write(&format!("streams/{name}.stream"), text);
    }
    let named = [
        "loss-tables: the file 'streams/empty.stream': refused 12: fewer than 20 bytes",
        REFUSED,
        "loss-tables: the file 'streams/short.stream': refused 12: fewer than 20 bytes",
    ];
    let ended = stage.run(&ASKED);
    assert_eq!((ended.status, &*ended.out), (Some(3), ""), "{ended:?}");
    let (progress, found) = told_apart(&ended);
    assert_eq!((progress.len(), found), (SAMPLES.len() + 2, named.to_vec()));
    // A run that finds every table there names them too; one that verifies does not speak of them.
    let again = stage.run(&["--replace", "streams", "tables"]);
    assert_eq!(
        (again.status, told_apart(&again).1),
        (Some(3), named.to_vec())
    );
    let verified = stage.run(&["--verify", "streams", "tables"]);
    assert_eq!(
        (verified.status, told_apart(&verified).1),
        (Some(0), vec![])
    );
}

#[test]
fn accepted_streams_end_well_and_a_second_run_changes_nothing() {
    let stage = script().stage;
    fs::remove_file(stage.path("streams/refused.stream")).expect("a file");
    let times = |stage: &Stage| {
        let time = |name: &String| fs::metadata(stage.path(&format!("tables/{name}")));
        let tables = names(stage, "tables");
        let tables = tables.iter().filter(|name| *name != "summary.txt");
        tables
            .map(|name| time(name).and_then(|of| of.modified()).expect("a time"))
            .collect::<Vec<_>>()
    };
    let ended = stage.run(&ASKED);
    assert_eq!((ended.status, &*ended.out), (Some(0), ""), "{ended:?}");
    let before = times(&stage);
    pass_time();
    assert_eq!(stage.run(&ASKED).status, Some(0));
    assert_eq!(times(&stage), before);
    check_tables(&stage);
    // A stream that has changed has another table.
    fs::write(
        stage.path("streams/bella.stream"),
        bytes("delay-only", "stream"),
    )
    .expect("a file");
    assert_eq!(stage.run(&ASKED).status, Some(0));
    check_tables(&stage);
}

#[test]
fn names_as_they_are() {
    let stage = script().stage;
    let odd = OsStr::from_bytes(b"caf\xe9 $(x) 'y'.stream");
    fs::create_dir(stage.path("odd")).expect("a folder");
    fs::write(stage.path("odd").join(odd), bytes("bella", "stream")).expect("a file");
    fs::write(stage.path("odd/.hidden.stream"), "").expect("a file");
    fs::write(stage.path("odd/.stream"), "").expect("a file");
    let ended = stage.run(&["odd", "tables"]);
    assert_eq!(ended.status, Some(0), "{ended:?}");
    assert_eq!(names(&stage, "tables").len(), 3);
    let summary = fs::read(stage.path("tables/summary.txt")).expect("a summary");
    let lines: Vec<&[u8]> = summary.split(|byte| *byte == b'\n').collect();
    assert!(lines[1].starts_with(b"caf\xe9 $(x) 'y'\t42\t"));
    let table = OsStr::from_bytes(b"caf\xe9 $(x) 'y'.table");
    let table = fs::read(stage.path("tables").join(table)).expect("a table");
    assert_eq!(table, bytes("bella", "table"));
    for name in ["a\tb", "a\nb"] {
        let path = stage.path(&format!("odd/{name}.stream"));
        fs::write(&path, "").expect("a file");
        stage
            .run(&["odd", "other"])
            .check_problem(1, "has a tab or a line feed");
        fs::remove_file(path).expect("a file");
    }
    assert!(!stage.path("other").exists());
}

#[test]
fn one_line_of_progress_on_a_terminal() {
    let stage = script().stage;
    let mut terminal = stage.system("script");
    let ended = stage.ended(terminal.args(["-qec", "bin/loss-tables streams tables", "/dev/null"]));
    assert_eq!(ended.status, Some(3), "{ended:?}");
    let told: Vec<&str> = ended.out.split("\r\u{1b}[K").collect();
    assert_eq!(told.len(), SAMPLES.len() + 1, "{ended:?}");
    let all = SAMPLES.len();
    let last = format!("{all}/{all} ");
    assert!(told[all].starts_with(&last), "{ended:?}");
    let (_, rest) = ended.out.split_once('\n').expect("an end");
    assert_eq!(rest.trim_end(), REFUSED, "{ended:?}");
}

#[test]
fn two_streams_at_a_time_where_there_are_two_cores() {
    if thread::available_parallelism().map_or(1, usize::from) < 2 {
        return;
    }
    let stage = script().stage;
    fs::create_dir_all(stage.path("meeting")).expect("a folder");
    // Either program waits for the other, but not for ever.
    let meets = "mktemp -p meeting >/dev/null\n\
                 for _ in $(seq 1000); do [ $(ls meeting | wc -l) -lt 2 ] || break; sleep 0.01; done\n\
                 [ $(ls meeting | wc -l) -ge 2 ] && echo refused 6";
    stage.script(PROGRAM, meets);
    for name in ["a", "b"] {
        stage.write(&format!("two/{name}.stream"), "");
    }
    let ended = stage.run(&["two", "tables"]);
    assert_eq!(ended.status, Some(3), "{ended:?}");
}

#[test]
fn forty_streams_of_4096_slots_and_their_certificates_take_at_most_a_second() {
    const MOST: Duration = Duration::from_secs(1);
    let stage = script().stage;
    fs::create_dir(stage.path("forty")).expect("a folder");
    for number in 0..40 {
        let file = draw::stream(&mut Dice::new(1, number), 60, 64, 4_096, 4_096).to_bytes();
        fs::write(stage.path(&format!("forty/{number:02}.stream")), file).expect("a stream");
    }
    // Whatever else the machine does, one of a few runs has it for itself.
    let times = (0..5).map(|run| {
        let started = Instant::now();
        let ended = stage.run(&["forty", &format!("tables{run}")]);
        assert_eq!(ended.status, Some(0), "{ended:?}");
        started.elapsed()
    });
    let best = times.min().expect("a run");
    let written = names(&stage, "tables0");
    let written = written.iter().filter(|name| name.ends_with(".certificate"));
    assert_eq!(written.count(), 40);
    assert!(best <= MOST, "{best:?}");
    println!("{best:?}");
}
