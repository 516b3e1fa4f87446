//! Full runs of a shared port.

use super::{Done, Report};
use crate::clock::Timed;
use crate::count;
use crate::ports::{Case, DEADLINES, Deadlines, LOADS, agree};
use crate::shown::{duration, grouped};

/// To the faster of both ports in Rust.
const AIM: f64 = 1.1;

impl Report<'_> {
    pub(super) fn ports(&mut self) -> Done {
        self.head(
            "A shared port's run of 8 streams × 256 slots",
            &["Deadlines", "Load"],
            &[
                "Late",
                "Library",
                "Rust",
                "Rust, heads",
                "Library / Rust",
                "Library / Rust, heads",
            ],
        )?;
        for deadlines in DEADLINES {
            let mut worst = 0.0_f64;
            for load in LOADS {
                worst = self.port_row(deadlines, load)?.max(worst);
            }
            let name = deadlines.name();
            let what = format!("A port's full run, deadlines {name}, to the faster in Rust");
            self.aim(what, AIM, worst);
        }
        Ok(())
    }

    /// The ratio to the faster port in Rust.
    fn port_row(&mut self, deadlines: Deadlines, load: u32) -> Result<f64, String> {
        let row = Case::row(deadlines, load);
        let late = agree(&row)?;
        let timed = Timed::in_turn(&mut row.map(Case::work));
        let ratios = [timed.ratio(0, 1), timed.ratio(0, 2)];
        let mut cells = vec![
            String::from(deadlines.name()),
            format!("{load} %"),
            grouped(late),
        ];
        cells.extend([0, 1, 2].map(|case| duration(timed.time(case))));
        cells.extend(ratios.map(|ratio| format!("{ratio:.2}")));
        self.row(&cells)?;
        Ok(ratios[0].max(ratios[1]))
    }

    pub(super) fn count_ports(&mut self) -> Done {
        for deadlines in DEADLINES {
            for load in LOADS {
                let [library, rust, heads] = Case::row(deadlines, load).map(|case| {
                    count::of_named(&case.to_string()).map(|all| grouped(all.round() as u64))
                });
                let name = format!(
                    "A port's full run, deadlines {}, load {load} %",
                    deadlines.name()
                );
                let none = String::new;
                self.row(&[name, library?, none(), none(), rust?, none(), heads?])?;
            }
        }
        Ok(())
    }
}
