//! Stream files, tables and certificates, drawn at random: ours, anyone's that are certified, and some
//! that are changed, damaged, exchanged or cut.

use reference::certificate;
use reference::layout::{NO_DELAY, StreamFile};
use reference::permitted::totals;
use reference::trace;
use tests_program::cases::{said, wide};
use tests_program::dice::Dice;
use tests_program::{damage, draw};

/// The bytes of a stream file, of a table and of a certificate.
pub type Case = [Vec<u8>; 3];

const MARKS: [&str; 4] = ["-", "arrivals", "delay", "buffer"];

/// Rows and their links: for each slot the first slot and mark of the admitted link, mark 0 for none,
/// and the first slot of the departed link.
struct Pair {
    arrivals: Vec<u64>,
    admitted: Vec<u64>,
    departed: Vec<u64>,
    links: certificate::Certificate,
}

/// A case of the kind that the number says.
pub fn drawn(number: usize, dice: &mut Dice) -> Result<Case, String> {
    let file = stream(dice);
    let mut pair = Pair::of(&file, dice)?;
    match number % 8 {
        0 => (),
        1 => pair.change_links(dice),
        2 => pair.change_rows(dice),
        3 => {
            pair.change_rows(dice);
            pair.change_links(dice);
        }
        _ => {
            let mut case = pair.printed(&file);
            spoil(&mut case, dice)?;
            return Ok(case);
        }
    }
    Ok(pair.printed(&file))
}

/// Some streams end in slots without arrivals, so that all deadlines of packets lie in them.
fn stream(dice: &mut Dice) -> StreamFile {
    let mut file = draw::any(dice);
    if dice.below(3) == 0 && file.header.delay != NO_DELAY {
        file.header.slots += file.header.delay;
    }
    file
}

impl Pair {
    /// Ours with the links that are found, or the rows that are certified whatever the stream ends in.
    fn of(file: &StreamFile, dice: &mut Dice) -> Result<Pair, String> {
        let (table, arrivals) = (wide(&file.table), wide(&file.arrivals()));
        let (delay, buffer) = (file.header.delay.into(), file.header.buffer.into());
        let lengths = [arrivals.len(); 3];
        let (rows, links) = if dice.below(4) == 0 {
            said(certificate::certified(&table, delay, buffer, &arrivals))?
        } else {
            let ours = said(trace::run(&table, delay, buffer, &arrivals, lengths))?;
            let links = certificate::find(&table, delay, buffer, &arrivals, lengths);
            (ours, said(links)?)
        };
        Ok(Pair {
            arrivals,
            admitted: rows.admitted,
            departed: rows.departed,
            links,
        })
    }

    /// One to three links become none, others that may hold, or anything.
    fn change_links(&mut self, dice: &mut Dice) {
        for _ in 0..dice.between(1, 3).min(self.arrivals.len() as u32) {
            let place = dice.place(self.arrivals.len());
            let any = u64::from(dice.below(place as u32 + 3));
            let (first, mark) = match dice.below(4) {
                0 => (0, 0),
                1 => (place as u64, dice.pick([1, 1, 1, 2, 3])),
                2 => (self.links.admitted_from[place], dice.pick([1, 2, 3])),
                _ => (any, dice.pick([1, 2, 3])),
            };
            if dice.below(4) == 0 {
                self.links.departed_from[place] = any;
            } else {
                self.links.admitted_from[place] = first;
                self.links.admitted_by[place] = mark;
            }
        }
    }

    /// One to three counts are one off, or far off; one in two times a departure is put off.
    fn change_rows(&mut self, dice: &mut Dice) {
        for _ in 0..dice.between(1, 3).min(self.arrivals.len() as u32) {
            let place = dice.place(self.arrivals.len());
            let list = match dice.below(2) {
                0 => &mut self.admitted,
                _ => &mut self.departed,
            };
            let count = list[place];
            let (less, more) = (count.saturating_sub(1), count + 1);
            list[place] = dice.pick([less, less, more, more, 0, 4_294_967_296]);
            if dice.below(2) == 0 && place + 1 < list.len() {
                list[place + 1] += count.saturating_sub(list[place]);
            }
        }
    }

    /// The three files, with all sums and amounts as far as they are numbers.
    fn printed(&self, file: &StreamFile) -> Case {
        let lists = [&self.arrivals, &self.admitted, &self.departed];
        let [a, u, v] = lists.map(|counts| totals(counts));
        let mut table = String::from("slot arrived admitted dropped departed held\n");
        let mut links = String::from("slot admitted from by amount departed from amount\n");
        let mut counts = vec![true];
        for slot in 1..a.len() {
            let [arrived, admitted, departed] = lists.map(|counts| counts[slot - 1]);
            let (dropped, held) = (
                arrived.saturating_sub(admitted),
                u[slot].saturating_sub(v[slot]),
            );
            table += &format!("{slot} {arrived} {admitted} {dropped} {departed} {held}\n");
            let [first, mark, gone] = [
                self.links.admitted_from[slot - 1],
                self.links.admitted_by[slot - 1],
                self.links.departed_from[slot - 1],
            ];
            let amount = |total: u64, first: u64| {
                let before = u.get(first as usize).copied().unwrap_or_default();
                total.saturating_sub(before)
            };
            let link = match mark {
                0 => String::from("- - -"),
                _ => format!(
                    "{first} {} {}",
                    MARKS[mark as usize],
                    amount(u[slot], first)
                ),
            };
            let gone = format!("{gone} {}", amount(v[slot], gone));
            links += &format!("{slot} {} {link} {} {gone}\n", u[slot], v[slot]);
            counts.push(mark > 0 && counts.get(first as usize) == Some(&true));
        }
        let slots = a.len() - 1;
        let [a, u, v] = [a, u, v].map(|totals| totals[slots]);
        let (dropped, held) = (a.saturating_sub(u), u.saturating_sub(v));
        table += &format!("total {a} {u} {dropped} {v} {held}\n");
        let certified = counts.into_iter().filter(|counts| *counts).count() - 1;
        links += &format!("certified {certified} of {slots} slots\n");
        [file.to_bytes(), table.into(), links.into()]
    }
}

/// Damages a text, or the stream, or exchanges a file for another.
fn spoil(case: &mut Case, dice: &mut Dice) -> Result<(), String> {
    match dice.below(12) {
        0 => case.swap(1, 2),
        1 => {
            let other = stream(dice);
            let place = dice.place(3);
            let others = Pair::of(&other, dice)?.printed(&other);
            case[place].clone_from(&others[place]);
        }
        2 => {
            let number = dice.below(5) as usize;
            case[0] = damage::file(number, dice);
        }
        _ => {
            let place = 1 + dice.place(2);
            for _ in 0..dice.between(1, 2) {
                damage_text(&mut case[place], dice);
            }
        }
    }
    Ok(())
}

/// A field changed, lines exchanged, left out or doubled, line feeds changed, or bytes cut or changed.
fn damage_text(text: &mut Vec<u8>, dice: &mut Dice) {
    let whole = String::from_utf8_lossy(text).into_owned();
    let mut lines: Vec<String> = whole.split_inclusive('\n').map(String::from).collect();
    let (one, other) = (dice.place(lines.len()), dice.place(lines.len()));
    let middle = dice.place(text.len() + 1);
    match dice.below(24) {
        0 => text.truncate(middle),
        1 => text.insert(
            middle,
            dice.pick([b' ', b'\n', b'\r', b'\t', b'0', b'9', 0, 0xff]),
        ),
        2 if middle < text.len() => text[middle] = dice.byte(),
        3 => text.extend(dice.pick([&b"\n"[..], b"x", b" ", b"1 2 3\n"])),
        4 => *text = whole.replace('\n', "\r\n").into(),
        5 => *text = whole.trim_end().into(),
        _ if lines.is_empty() => (),
        kind => {
            match kind {
                6 => lines.swap(one, other),
                7 => drop(lines.remove(one)),
                8 => lines.insert(one, lines[other].clone()),
                _ => lines[one] = changed(&lines[one], dice),
            }
            *text = lines.concat().into();
        }
    }
}

/// A line with a field changed.
fn changed(line: &str, dice: &mut Dice) -> String {
    let mut fields: Vec<String> = line.trim_end().split(' ').map(String::from).collect();
    let place = dice.place(fields.len());
    fields[place] = match fields[place].parse::<u64>() {
        Ok(number) => {
            let (less, more) = (
                number.saturating_sub(1).to_string(),
                (number + 1).to_string(),
            );
            let zero = format!("0{number}");
            dice.pick([
                &*less,
                &*less,
                &*more,
                &*more,
                &*more,
                "0",
                "9999999999",
                "99999999999",
                "+1",
                "-1",
                "",
                "-",
                &*zero,
            ])
            .to_owned()
        }
        Err(_) => dice
            .pick(["arrivals", "delay", "buffer", "-", "", "0", "4", "Delay"])
            .to_owned(),
    };
    fields.join(" ") + "\n"
}
