//! What is drawn of a pair of rows: running totals, the loss and the fill.

use std::ops::RangeInclusive;

use crate::table::Row;

/// One number a slot, and the one before the first of them.
#[derive(Clone, Debug, Default, PartialEq, Eq)]
pub struct Curve {
    pub before: i64,
    pub values: Vec<i64>,
}

impl Curve {
    pub fn last(&self) -> i64 {
        self.values.last().copied().unwrap_or(self.before)
    }

    /// The highest value of a slot.
    pub fn highest(&self) -> i64 {
        self.values.iter().copied().max().unwrap_or(0)
    }

    pub fn all(&self) -> impl Iterator<Item = i64> {
        [self.before].into_iter().chain(self.values.iter().copied())
    }

    /// The highest values of so many slots each.
    pub fn highest_of(&self, slots: usize) -> Curve {
        let highest = |some: &[i64]| some.iter().copied().max().unwrap_or(0);
        Curve {
            before: self.before,
            values: self.values.chunks(slots).map(highest).collect(),
        }
    }

    /// Places of slots in which it rises.
    pub fn rises(&self) -> Vec<usize> {
        let before = self.all();
        let pairs = before.zip(&self.values).enumerate();
        pairs
            .filter(|(_, (before, value))| before < *value)
            .map(|(place, _)| place)
            .collect()
    }
}

/// The totals A, X and Y after each slot, the loss A - X, and the fill before departures, which is
/// what the buffer limit bounds: X less the Y of the slot before.
#[derive(Clone, Debug, Default, PartialEq, Eq)]
pub struct Curves {
    pub arrived: Curve,
    pub admitted: Curve,
    pub departed: Curve,
    pub lost: Curve,
    pub fill: Curve,
}

impl Curves {
    /// The table's own.
    pub fn of_table(table: &[Row], slots: &RangeInclusive<usize>) -> Curves {
        Curves::of(table, slots, |row| (row.admitted, row.departed))
    }

    /// Over these slots of a table, whose totals begin with slot 1: a slot's admitted and departed
    /// packets are the pair's.
    pub fn of(
        table: &[Row],
        slots: &RangeInclusive<usize>,
        mut pair: impl FnMut(&Row) -> (u64, u64),
    ) -> Curves {
        let mut curves = Curves::default();
        let [mut arrived, mut admitted, mut departed] = [0_i64; 3];
        for (slot, row) in (1..).zip(table) {
            let (let_in, let_go) = pair(row);
            arrived += row.arrived as i64;
            admitted += let_in as i64;
            let fill = admitted - departed;
            departed += let_go as i64;
            curves.take(
                slot,
                slots,
                [arrived, admitted, departed, arrived - admitted, fill],
            );
        }
        curves
    }

    fn take(&mut self, slot: usize, slots: &RangeInclusive<usize>, values: [i64; 5]) {
        let curves = [
            &mut self.arrived,
            &mut self.admitted,
            &mut self.departed,
            &mut self.lost,
            &mut self.fill,
        ];
        for (curve, value) in curves.into_iter().zip(values) {
            if slots.contains(&slot) {
                curve.values.push(value);
            } else if slot < *slots.start() {
                curve.before = value;
            }
        }
    }
}
