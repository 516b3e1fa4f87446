//! What is timed beside the library answers what the library and the reference answer.

use std::collections::VecDeque;

use bench::quick::Refused;
use bench::{printing, quick, sliding};
use bezhantiru::{Lists, NO_BUFFER, NO_DELAY, Record, Refusal};
use reference::layout::StreamFile;
use reference::{stream, text};
use tests_program::cases::{for_each_drawn, for_each_numbered};
use tests_program::dice::{Dice, seed};
use tests_program::{damage, draw};

const FILES: usize = 20_000;
const RUNS: usize = 20_000;
const LONG_RUNS: usize = 24;
const SLOTS: u32 = 1_000_000;

#[test]
fn the_program_in_rust_prints_what_the_reference_prints() {
    for_each_numbered(FILES, |number, dice| {
        let file = damage::file(number, dice);
        let (found, wanted) = (printing::printed(&file), text::printed(&file));
        if found == wanted.as_bytes() {
            return Ok(());
        }
        let found = String::from_utf8_lossy(&found);
        Err(format!("wanted:\n{wanted}found:\n{found}"))
    });
}

/// As many slots as a live regulator takes, under table, d and q as drawn; ends with the order
/// form's peak.
fn check_live(drawn: &StreamFile, dice: &mut Dice) -> Result<u64, String> {
    let (table, delay, buffer) = (&drawn.table, drawn.header.delay, drawn.header.buffer);
    let library = bezhantiru::Regulator::set_up(table, delay, buffer);
    let mut library = library.map_err(|refusal| refusal.to_string())?;
    let rust = quick::Regulator::set_up(table, delay, buffer);
    let mut rust = rust.map_err(|number| format!("refused {number}"))?;
    let mut rules = Rules::new(drawn);
    let rate = table[table.len() - 1] / drawn.header.last_window;
    let most = (3 * rate + 2).min(1_000_000);
    for slot in 1..=SLOTS + 1 {
        let arrivals = u64::from(dice.below(most + 1));
        let found = library.slot(arrivals).map_err(|refusal| refusal.number());
        let wanted = rust.slot(arrivals);
        if found != wanted || wanted.is_ok() != (slot <= SLOTS) {
            return Err(format!("slot {slot}: library {found:?}, Rust {wanted:?}"));
        }
        let peaks = [library.form_peak(), library.bench_peak()];
        if peaks != [rust.form_peak(), rust.bench_peak()] {
            return Err(format!("slot {slot}: library {peaks:?}, Rust {rust:?}"));
        }
        if let Ok(record) = found {
            let kept = rules.check(arrivals, record, peaks);
            kept.map_err(|rule| format!("slot {slot}: {record:?} breaks the {rule}"))?;
        }
    }
    Ok(library.form_peak())
}

/// What documents 01 and 02 ask of every slot's record and of the peaks after it, whoever worked
/// them out: the totals through the last 65 slots are enough to see it.
struct Rules<'a> {
    table: &'a [u32],
    delay: Option<usize>,
    buffer: Option<u64>,
    /// The form's and the bench's, so far.
    peaks: [u64; 2],
    /// Totals, newest first.
    admitted: VecDeque<u64>,
    departed: VecDeque<u64>,
}

impl Rules<'_> {
    fn new(drawn: &StreamFile) -> Rules<'_> {
        let (delay, buffer) = (drawn.header.delay, drawn.header.buffer);
        Rules {
            table: &drawn.table,
            delay: (delay != NO_DELAY).then_some(delay as usize),
            buffer: (buffer != NO_BUFFER).then_some(buffer.into()),
            peaks: [0; 2],
            admitted: VecDeque::from([0]),
            departed: VecDeque::from([0]),
        }
    }

    /// The rule that a slot breaks, if any.
    fn check(&mut self, arrivals: u64, slot: Record, peaks: [u64; 2]) -> Result<(), &'static str> {
        let (admitted, departed) = (&mut self.admitted, &mut self.departed);
        let held_before = admitted[0] - departed[0];
        admitted.push_front(admitted[0] + slot.admitted);
        departed.push_front(departed[0] + slot.departed);
        admitted.truncate(66);
        departed.truncate(66);
        let (x, y) = (admitted[0], departed[0]);
        let fills = [x.saturating_sub(y), x - departed[1]];
        self.peaks = [0, 1].map(|reader| self.peaks[reader].max(fills[reader]));
        let within = |most: u64| peaks.iter().all(|&peak| peak <= most);
        let windows = self.table.iter().zip(departed.iter());
        let due = self.delay.and_then(|delay| admitted.get(delay));
        let rules = [
            (slot.admitted + slot.dropped == arrivals, "arrivals"),
            (slot.held_before == held_before, "held total before"),
            (y <= x, "admitted total"),
            (
                [slot.form_fill(), slot.bench_fill()] == fills,
                "readers' fills",
            ),
            (peaks == self.peaks, "peaks"),
            (self.buffer.is_none_or(within), "buffer limit"),
            (due.is_none_or(|due| *due <= y), "delay limit"),
            (
                windows
                    .into_iter()
                    .all(|(most, then)| y - then <= u64::from(*most)),
                "envelope",
            ),
        ];
        let broken = rules.iter().find(|(kept, _)| !kept);
        broken.map_or(Ok(()), |(_, rule)| Err(rule))
    }
}

#[test]
fn a_million_slots_are_the_same() {
    for_each_drawn(8, |dice| {
        check_live(&draw::stream(dice, 1, 64, 0, 0), dice)?;
        Ok(())
    });
}

#[test]
fn a_million_slots_under_both_limits_are_the_same() {
    for_each_drawn(8, |dice| match check_live(&draw::limited(dice), dice)? {
        0 => Err(String::from("no packet ever waited, so little was tried")),
        _ => Ok(()),
    });
}

#[test]
fn envelopes_are_the_same() {
    let seed = seed().unwrap_or_else(|problem| panic!("{problem}"));
    println!("SEED={seed}");
    for number in 0..200 {
        let table = draw::stream(&mut Dice::new(seed, number), 1, 64, 0, 0).table;
        for window in [0, 1, 2, 3, 63, 64, 65, 128, 1_000, 4_159, 4_160, 4_161] {
            let found = bezhantiru::envelope(&table, window).map_err(|refusal| refusal.number());
            assert_eq!(
                found,
                quick::envelope(&table, window),
                "SEED={seed}, {table:?}"
            );
        }
    }
}

/// How a run ended, and the three lists after it.
type Ran = (Result<(), Refused>, [Vec<u32>; 3]);

fn ran(lengths: [usize; 3], run: impl FnOnce(Lists<'_>) -> Result<(), Refused>) -> Ran {
    let mut lists = lengths.map(|length| vec![u32::MAX; length]);
    let [admitted, dropped, departed] = &mut lists;
    let outcome = run(Lists {
        admitted,
        dropped,
        departed,
    });
    (outcome, lists)
}

/// The library's run beside both in Rust, refused ones included.
fn check_run(drawn: StreamFile, dice: &mut Dice) -> Result<(), String> {
    let arrivals = stream::read(&drawn.to_bytes()).map_err(|refusal| refusal.to_string())?;
    let mut arrivals: Vec<u32> = arrivals.arrivals.iter().map(|&n| n as u32).collect();
    let (mut table, mut delay, mut buffer) = (drawn.table, drawn.header.delay, drawn.header.buffer);
    let mut lengths = [arrivals.len(); 3];
    match dice.below(20) {
        0 => table = vec![0, 3, 2],
        1 => delay = dice.pick([65, 254]),
        2 => buffer = dice.pick([1_000_001, u32::MAX - 1]),
        3 => arrivals.push(1_000_001),
        6 => (delay, buffer) = (NO_DELAY, NO_BUFFER),
        7 => {
            (delay, buffer) = (NO_DELAY, NO_BUFFER);
            arrivals.push(1_000_001);
        }
        4 => lengths[dice.place(3)] += 1,
        5 => {
            arrivals.push(1_000_001);
            lengths = lengths.map(|length| length + 1);
        }
        _ => (),
    }
    let wanted = ran(lengths, |lists| {
        bezhantiru::run(&table, delay, buffer, &arrivals, lists).map_err(Refusal::number)
    });
    for run in [quick::run, sliding::run] {
        let found = ran(lengths, |lists| {
            run(&table, delay, buffer, &arrivals, lists)
        });
        if found != wanted {
            return Err(format!("library {wanted:?}, Rust {found:?}"));
        }
    }
    Ok(())
}

#[test]
fn runs_are_the_same() {
    for_each_drawn(RUNS, |dice| check_run(draw::any(dice), dice));
}

#[test]
fn long_runs_are_the_same() {
    for_each_drawn(LONG_RUNS, |dice| {
        check_run(draw::stream(dice, 1, 64, 4_095, 4_096), dice)?;
        check_run(full(dice), dice)
    });
}

/// Totals as large as a trace can have.
fn full(dice: &mut Dice) -> StreamFile {
    let mut file = draw::stream(dice, 1, 64, 4_096, 4_096);
    file.table.fill(1_000_000);
    file.table[0] = 0;
    file.header.bursts = 4_096;
    file.burst_slots = (1..=4_096).collect();
    file.burst_counts = vec![1_000_000; 4_096];
    file
}
