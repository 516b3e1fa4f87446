//! `bin/certificate`: certificates as the reference finds them, and the samples'; verdicts on anyone's
//! tables and certificates beside those of `referee/referee.py`; the linear program beside that; and the
//! script.

mod cases;
mod found;
mod linear_program;
mod refereed;
mod script;
mod verdicts;

use tests_program::over_library::Script;
use tests_program::samples::bytes;

const STREAM: &str = "streams/six-packet-burst.stream";
const CHECKED: [&str; 4] = ["--check", STREAM, "six.table", "six.certificate"];
const PRINTED: &str = "slot admitted from by amount departed from amount
1 4 0 buffer 4 4 0 4
2 8 0 buffer 8 8 0 8
3 12 0 buffer 12 12 0 12
4 16 0 buffer 16 16 0 16
certified 4 of 4 slots
";
const CERTIFIED: &str = "certified: no regulator could have lost fewer by any of 4 slots\n";

/// The six-packet burst's table and certificate stand in the stage.
pub fn script() -> Script {
    let program = env!("CARGO_BIN_EXE_certificate");
    let script = Script::new("bin/certificate", program, &[STREAM], PRINTED);
    script.stage.write(CHECKED[2], &table());
    script.stage.write(CHECKED[3], PRINTED);
    script
}

fn table() -> String {
    String::from_utf8_lossy(&bytes("six-packet-burst", "table")).into_owned()
}
