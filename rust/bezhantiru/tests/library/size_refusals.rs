//! What is refused of the smallest limits, at every limit and one beyond, and the orders: table, 6, 10, 8
//! and table, 7, 10, 8. Nothing is said of the limit that is sought, nor of the most lost.

use crate::faults::{Fault, SetUp, for_each_choice};
use crate::judged::{BUFFERS, COUNTS, DELAYS, LENGTHS, first};
use crate::judged_tables::judged_tables;
use crate::sized::{Asked, Sought, refused};

/// Nothing of it is refused.
fn accepted(sought: Sought) -> Asked {
    Asked {
        sought,
        table: vec![0, 2, 3, 5],
        limits: (1, 9),
        arrivals: vec![5, 0, 4, 0],
        most_lost: 3,
    }
}

/// The number; refused, all else is 0, as the reference has it.
fn gets(asked: &Asked, number: u32) {
    let found = asked.find();
    assert_eq!(found.number, number, "{asked:?}");
    if number != 0 {
        assert_eq!(found, refused(number), "{asked:?}");
        assert_eq!(found, asked.by_halving(), "{asked:?}");
    }
}

impl SetUp for Asked {
    fn table(&mut self) -> &mut Vec<u32> {
        &mut self.table
    }

    fn limits(&mut self) -> &mut (u32, u32) {
        &mut self.limits
    }
}

/// The number of a given limit that is refused.
fn limit_number(sought: Sought) -> u32 {
    match sought {
        Sought::Buffer => 6,
        Sought::Delay => 7,
    }
}

#[test]
fn any_faults_get_the_first_number() {
    for sought in Sought::BOTH {
        let mut faults = Asked::faults();
        faults.retain(|(number, _)| *number < 6 || *number == limit_number(sought));
        let of_trace: [Fault<Asked>; 2] = [
            (10, |asked| asked.arrivals.resize(4_097, 1)),
            (8, |asked| asked.arrivals[3] = 1_000_001),
        ];
        faults.extend(of_trace);
        for_each_choice(&accepted(sought), &faults, gets);
        for most_lost in [0, u32::MAX] {
            let asked = Asked {
                most_lost,
                ..accepted(sought)
            };
            for_each_choice(&asked, &faults, gets);
        }
    }
}

#[test]
fn tables_and_limits() {
    for sought in Sought::BOTH {
        let check = |asked: &Asked, number: u32| {
            gets(asked, number);
            let mut asked = asked.clone();
            asked.arrivals[0] = u32::MAX;
            gets(&asked, first([number, 8]));
            asked.arrivals.resize(4_097, 1);
            gets(&asked, first([number, 10]));
        };
        for (table, number) in judged_tables() {
            let asked = Asked {
                table,
                ..accepted(sought)
            };
            check(&asked, number);
        }
        for (delay, by_delay) in DELAYS {
            for (buffer, by_buffer) in BUFFERS {
                let asked = Asked {
                    limits: (delay, buffer),
                    ..accepted(sought)
                };
                check(
                    &asked,
                    match sought {
                        Sought::Buffer => by_delay,
                        Sought::Delay => by_buffer,
                    },
                );
            }
        }
    }
}

#[test]
fn slots_and_counts() {
    for sought in Sought::BOTH {
        for (slots, by_slots) in LENGTHS {
            let mut asked = accepted(sought);
            asked.arrivals = vec![0; slots];
            gets(&asked, by_slots);
            for (count, by_count) in COUNTS {
                for place in [0, slots / 2, slots.saturating_sub(1)] {
                    let mut asked = asked.clone();
                    if let Some(arrivals) = asked.arrivals.get_mut(place) {
                        *arrivals = count;
                        gets(&asked, first([by_slots, by_count]));
                    }
                }
            }
        }
    }
}
