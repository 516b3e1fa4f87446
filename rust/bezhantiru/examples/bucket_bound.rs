//! How close the bound of document 02, 2.6, comes: drawn devices of two to four buckets, each beside
//! devices of one of its buckets, on the same drawn traces. Prints the least, the middle and the
//! greatest of the device's loss over the sum of the single ones', where anything was lost.
//!
//!     cargo run --release --offline --example bucket_bound
//!
//! `SEED=7` draws others than the fixed seed does.

#[path = "../tests/library/singles/mod.rs"]
mod singles;

use std::error::Error;

use singles::{Losses, losses};
use tests_program::dice::{Dice, seed};
use tests_program::profile::{self, Drawn};

const DEVICES: u64 = 400;
const SLOTS: u32 = 400;

/// A device that has lost packets by the end of its trace.
struct Lossy {
    drawn: Drawn,
    losses: Losses,
}

impl Lossy {
    /// The device's loss over the sum of the single ones'.
    fn part(&self) -> f64 {
        self.losses.device as f64 / self.losses.sum() as f64
    }
}

fn main() -> Result<(), Box<dyn Error>> {
    let seed = seed()?;
    let mut lossy = Vec::new();
    for number in 0..DEVICES {
        let drawn = profile::competing(&mut Dice::new(seed, number), SLOTS);
        let after = losses(&drawn)?;
        if let Some(broken) = after.iter().position(|losses| !losses.keep_the_bound()) {
            return Err(format!("slot {} of {drawn:?}: the bound is broken", broken + 1).into());
        }
        let last = after.into_iter().last().filter(|last| last.sum() > 0);
        lossy.extend(last.map(|losses| Lossy { drawn, losses }));
    }
    println!("SEED={seed}: {DEVICES} devices keep the bound after each of {SLOTS} slots");
    lossy.sort_by(|a, b| a.part().total_cmp(&b.part()));
    print_all(&lossy);
    Ok(())
}

fn print_all(lossy: &[Lossy]) {
    let at_the_sum = |one: &&Lossy| one.losses.device == one.losses.sum();
    let at_the_greatest = |one: &&Lossy| one.losses.single.contains(&one.losses.device);
    let count = |which: fn(&&Lossy) -> bool| lossy.iter().filter(which).count();
    let (upper, lower) = (count(at_the_sum), count(at_the_greatest));
    println!(
        "{} lost packets: {upper} as many as the sum, {lower} as many as one of the single ones",
        lossy.len()
    );
    for (what, place) in [
        ("least", 0),
        ("middle", lossy.len() / 2),
        ("greatest", lossy.len().saturating_sub(1)),
    ] {
        let Some(one) = lossy.get(place) else { return };
        let (
            Drawn {
                profile,
                delay,
                buffer,
                ..
            },
            losses,
        ) = (&one.drawn, &one.losses);
        println!(
            "{what} loss / sum {:.4}: {} of {:?}, buckets {profile:?}, d {delay}, q {buffer}",
            one.part(),
            losses.device,
            losses.single
        );
    }
}
