//! `bin/why`: the chain of a slot and the totals beside it, as the reference works them out; and the
//! script: a chain, or one line that says why there is none.

#[allow(dead_code, reason = "its main is for the program")]
#[path = "../../src/bin/why/main.rs"]
mod program;

use commands::pieces::Pieces;
use program::{Bound, Link, NoAnswer, Why};
use reference::stream::{self, Stream};
use reference::{chain, closure, piece, refusal, trace};
use tests_program::cases::{for_each_drawn, for_each_numbered, same};
use tests_program::over_library::Script;
use tests_program::samples::{ACCEPTED, bytes};
use tests_program::stage::PROVED;
use tests_program::{damage, draw};

const FILES: usize = 20_000;
const LONG_FILES: usize = 12;
const SAMPLES: [&str; 5] = [
    "bella",
    "six-packet-burst",
    "delay-only",
    "no-limits",
    "refused",
];
const ASKED: [&str; 2] = ["streams/bella.stream", "13"];
const PRINTED: &str = "slots 1 to 13: delay, f(13+7) = f(20) = 88 = table(10) + table(10)
sum 88, X(13) = 88
arrived 97, lost 9
";

/// What the reference says of a slot: its chain and the totals, or the number.
fn wanted(file: &[u8], slot: u32) -> Result<Why, refusal::Refusal> {
    let stream = stream::read(file)?;
    let (table, delay, buffer) = (&stream.table, stream.delay, stream.buffer);
    let lengths = [stream.arrivals.len() + 1; 3];
    let chain = chain::find(table, delay, buffer, &stream.arrivals, slot.into(), lengths)?;
    let rows = trace::rows(&stream)?;
    let rows = &rows[..slot as usize];
    Ok(Why {
        slot,
        links: (1..chain.slots.len())
            .map(|place| link(&stream, &chain, place))
            .collect(),
        arrived: rows.iter().map(|row| row.arrived).sum(),
        admitted: rows.iter().map(|row| row.admitted).sum(),
        lost: rows.iter().map(|row| row.dropped).sum(),
    })
}

/// f at a window of an accepted table, and the pieces that make it up.
fn pieces(table: &[u64], window: usize) -> Pieces {
    let pieces = piece::in_turn(table, window as u64).expect("an accepted question");
    Pieces {
        window: window as u32,
        packets: closure::by_recursion(table, window)[window],
        pieces: pieces.into_iter().map(|piece| piece as u32).collect(),
    }
}

fn link(stream: &Stream, chain: &chain::Chain, place: usize) -> Link {
    let (first, last) = (chain.slots[place - 1], chain.slots[place]);
    let arrived = |slot: u64| stream.arrivals[..slot as usize].iter().sum();
    let window = (last - first) as usize;
    let bound = match chain.marks[place] {
        1 => Bound::Arrivals {
            through: arrived(last),
            before: arrived(first),
        },
        2 => Bound::Delay {
            delay: stream.delay as u32,
            reach: pieces(&stream.table, window + stream.delay as usize),
        },
        _ => Bound::Buffer {
            before: pieces(&stream.table, window - 1),
            buffer: stream.buffer as u32,
        },
    };
    Link {
        first: first as u32,
        last: last as u32,
        bound,
        amount: chain.amounts[place] as u32,
    }
}

fn check(file: &[u8], slot: u32) -> Result<(), String> {
    let found = Why::of_file(file, slot).map_err(|reason| reason.to_string());
    let wanted = wanted(file, slot).map_err(|refusal| refusal.to_string());
    // The library's refusals say their condition too.
    let found = found.map_err(|said| said.split(':').next().unwrap_or_default().to_owned());
    same(&format!("{file:02x?}, slot {slot}"), found, wanted)
}

#[test]
fn samples_at_every_slot() {
    for name in SAMPLES {
        for slot in 0..=60 {
            let done = check(&bytes(name, "stream"), slot);
            done.unwrap_or_else(|problem| panic!("{name}: {problem}"));
        }
    }
    for slot in [0, 1, 2_048, 4_095, 4_096, 4_097, u32::MAX] {
        check(&bytes("long", "stream"), slot).unwrap_or_else(|problem| panic!("long: {problem}"));
    }
}

#[test]
fn drawn_files() {
    for_each_numbered(FILES, |number, dice| {
        let file = damage::file(number, dice);
        let some = dice.below(16);
        check(&file, dice.pick([some, some, some, 0, u32::MAX]))
    });
}

#[test]
fn long_files() {
    for_each_drawn(LONG_FILES, |dice| {
        let file = draw::stream(dice, 1, 64, 4_000, 4_096).to_bytes();
        check(&file, dice.between(1, 4_000))
    });
}

#[test]
fn printed() {
    let text = |name, slot| Why::of_file(&bytes(name, "stream"), slot).map(|why| why.to_string());
    for (name, slot, wanted) in [
        ("bella", 0, "sum 0, X(0) = 0\narrived 0, lost 0\n"),
        (
            "bella",
            5,
            "slot 1: buffer, f(0) + q = 0 + 36 = 36\n\
             slots 2 to 5: arrivals, A(5) - A(1) = 46 - 38 = 8\n\
             sum 44, X(5) = 44\n\
             arrived 46, lost 2\n",
        ),
        (
            "bella",
            13,
            "slots 1 to 13: delay, f(13+7) = f(20) = 88 = table(10) + table(10)\n\
             sum 88, X(13) = 88\n\
             arrived 97, lost 9\n",
        ),
        (
            "delay-only",
            9,
            "slots 1 to 9: delay, f(9+2) = f(11) = 22 = table(3) + table(4) + table(4)\n\
             sum 22, X(9) = 22\n\
             arrived 28, lost 6\n",
        ),
        (
            "six-packet-burst",
            2,
            "slots 1 to 2: buffer, f(1) + q = 4 + 4 = 8, f(1) = 4 = table(1)\n\
             sum 8, X(2) = 8\n\
             arrived 12, lost 4\n",
        ),
    ] {
        assert_eq!(text(name, slot), Ok(String::from(wanted)));
    }
    let said = |name, slot| text(name, slot).map_err(|reason: NoAnswer| reason.to_string());
    let beyond = String::from("refused 18: a slot above the trace's length");
    assert_eq!(said("bella", 43), Err(beyond));
    let file = String::from("refused 6: delay is neither 0 to 64 nor 255");
    assert_eq!(said("refused", 43), Err(file));
}

fn text(sample: &str, slot: u32) -> String {
    let why = Why::of_file(&bytes(sample, "stream"), slot);
    why.expect("an accepted slot").to_string()
}

pub fn script() -> Script {
    let program = env!("CARGO_BIN_EXE_why");
    Script::new("bin/why", program, &ASKED, PRINTED)
}

#[test]
fn a_file_or_standard_input() {
    let stage = script().stage;
    for sample in ACCEPTED {
        let path = format!("streams/{sample}.stream");
        for slot in [0, 1, 4] {
            let (word, wanted) = (slot.to_string(), text(sample, slot));
            stage.run(&[&path, &word]).check_printed(&wanted);
            let bytes = bytes(sample, "stream");
            let fed = stage.feed(&["-", &word], &bytes);
            fed.check_printed(&wanted);
        }
    }
    let last = stage.run(&["streams/long.stream", "04096"]);
    last.check_printed(&text("long", 4_096));
    stage.run(&ASKED).check_printed(PRINTED);
    assert_eq!(stage.calls(PROVED), 0);
}

#[test]
fn help_and_wrong_usage() {
    let words = [&[][..], &ASKED[..1], &["a", "1", "2"]];
    let wrong = words.map(|words| (words, "a stream file and a slot"));
    script().check_usage("FILE SLOT", &wrong);
}

#[test]
fn a_slot_that_is_no_number_is_said() {
    let stage = script().stage;
    for (slot, words) in [
        ("", "the slot \"\" is no number"),
        ("-1", "the slot \"-1\" is no number"),
        ("thirteen", "the slot \"thirteen\" is no number"),
        ("1.0", "the slot \"1.0\" is no number"),
        ("1\n2", "the slot \"1\\n2\" is no number"),
    ] {
        let ended = stage.run(&[ASKED[0], slot]);
        ended.check_problem(2, words);
    }
}

#[test]
fn refused_slots_say_their_number() {
    let stage = script().stage;
    let beyond = "'streams/bella.stream': refused 18: a slot above the trace's length";
    for slot in ["43", "4294967295", "99999999999999999999"] {
        stage.run(&[ASKED[0], slot]).check_problem(1, beyond);
    }
}

#[test]
fn files_that_are_refused_or_cannot_be_read() {
    script().check_stream_files(&["99"]);
}
