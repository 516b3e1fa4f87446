//! `bin/peaks`: the peaks of a file and their slots, beside the reference; and the script: whatever it
//! is given, two lines, or one that says why there are none.

#[allow(dead_code, reason = "its main is for the program")]
#[path = "../../src/bin/peaks.rs"]
mod program;

use program::{Peak, Peaks};
use reference::{fill, refusal, stream, trace};
use tests_program::cases::{for_each_drawn, for_each_numbered};
use tests_program::over_library::Script;
use tests_program::samples::{ACCEPTED, SAMPLES, bytes};
use tests_program::stage::{PROVED, Stage, pass_time};
use tests_program::{damage, draw};

const FILES: usize = 20_000;
const LONG_FILES: usize = 12;
const PRINTED: &str = "form 30 in slot 1\nbench 36 in slot 1\n";

/// The highest fill and the first slot that has it; 0 is there before the first slot.
fn peak(fills: &[u64]) -> Peak {
    let packets = fills.iter().copied().max().unwrap_or(0);
    let first = fills.iter().position(|&fill| fill == packets && fill > 0);
    Peak {
        packets,
        slot: first.map(|index| index as u32 + 1),
    }
}

/// What the reference says of a file: its peaks, or the number. A file with both marks has rows, but
/// no live regulator.
fn wanted(file: &[u8]) -> Result<Peaks, u32> {
    let rows = stream::read(file).and_then(|stream| {
        refusal::set_up(&stream.table, stream.delay, stream.buffer)?;
        trace::rows(&stream)
    });
    let rows = rows.map_err(|refusal| u32::from(refusal.number()))?;
    let records = fill::records(&rows);
    let fills = |fill: fn(&fill::Record) -> u64| records.iter().map(fill).collect::<Vec<u64>>();
    Ok(Peaks {
        form: peak(&fills(fill::Record::form_fill)),
        bench: peak(&fills(fill::Record::bench_fill)),
    })
}

fn check(file: &[u8]) -> Result<(), String> {
    let found = Peaks::of_file(file).map_err(|refusal| refusal.number());
    let wanted = wanted(file);
    if found == wanted {
        Ok(())
    } else {
        Err(format!("{file:02x?}: found {found:?}, wanted {wanted:?}"))
    }
}

#[test]
fn samples() {
    for name in SAMPLES {
        check(&bytes(name, "stream")).unwrap_or_else(|problem| panic!("{name}: {problem}"));
    }
}

#[test]
fn drawn_files() {
    for_each_numbered(FILES, |number, dice| check(&damage::file(number, dice)));
}

#[test]
fn long_files() {
    for_each_drawn(LONG_FILES, |dice| {
        check(&draw::stream(dice, 1, 64, 4_000, 4_096).to_bytes())
    });
}

#[test]
fn printed() {
    let text = |file: &[u8]| Peaks::of_file(file).map(|peaks| peaks.to_string());
    let bella = String::from("form 30 in slot 1\nbench 36 in slot 1\n");
    assert_eq!(text(&bytes("bella", "stream")), Ok(bella));
    // Table 0,2, both limits 0, then no slots, and four slots without arrivals.
    for slots in [0, 4] {
        let empty = [1, slots, 0, 0, 0, 0, 2_u32].map(u32::to_le_bytes).concat();
        assert_eq!(text(&empty), Ok(String::from("form 0\nbench 0\n")));
    }
    // What departs at once is never held: d 0 and q 9, five packets in slot 3, of which two are admitted.
    let through = [1, 4, 1, 0, 9, 0, 2, 3, 5_u32]
        .map(u32::to_le_bytes)
        .concat();
    let wanted = String::from("form 0\nbench 2 in slot 3\n");
    assert_eq!(text(&through), Ok(wanted));
}

fn text(sample: &str) -> String {
    let peaks = Peaks::of_file(&bytes(sample, "stream"));
    peaks.expect("an accepted sample").to_string()
}

/// With no argument it reads Bella's stream.
pub fn script() -> Script {
    let program = env!("CARGO_BIN_EXE_peaks");
    Script::new("bin/peaks", program, &[], PRINTED)
}

#[test]
fn a_file_standard_input_or_the_sample() {
    let stage = script().stage;
    assert_eq!(text("bella"), PRINTED);
    stage.run(&[]).check_printed(PRINTED);
    for sample in ACCEPTED {
        let (path, wanted) = (format!("streams/{sample}.stream"), text(sample));
        stage.run(&[&path]).check_printed(&wanted);
        let bytes = bytes(sample, "stream");
        for input in ["-", "/dev/stdin"] {
            stage.feed(&[input], &bytes).check_printed(&wanted);
        }
    }
    assert_eq!(stage.calls(PROVED), 0);
}

#[test]
fn help_and_wrong_usage() {
    let two = (&["a", "b"][..], "one stream file at most");
    script().check_usage("[FILE]", &[two]);
}

#[test]
fn files_that_are_refused_or_cannot_be_read() {
    script().check_stream_files(&[]);
}

#[test]
fn sources_that_changed_are_noticed() {
    let stage = script().stage;
    let changes: [fn(&Stage); 3] = [
        |stage| stage.write("crates/exports_c/src/lib.rt", "// changed"),
        |stage| stage.write("crates.txt", "exports_c staticlib: regulator\n"),
        |stage| stage.write("crates/regulator/src/lib.rt", "// changed"),
    ];
    for (before, change) in changes.into_iter().enumerate() {
        pass_time();
        change(&stage);
        let ended = stage.run(&[]);
        assert_eq!((ended.status, &*ended.out), (Some(0), PRINTED));
        stage.run(&[]).check_printed(PRINTED);
        assert_eq!(stage.calls(PROVED), before + 1);
    }
}
