//! The program beside the reference.

use std::thread;

use reference::text;

use crate::program::Program;

/// As many runs at a time as a small machine has room for.
const THREADS: usize = 2;

/// Runs the program on one file; a difference comes back as the file in hex and both outputs.
pub fn compare(program: &Program, file: &[u8]) -> Result<(), String> {
    compare_with(&text::printed(file), program.print(file), file)
}

/// Compares what the program printed, or its failure, with what was wanted.
pub fn compare_with(
    wanted: &str,
    found: Result<String, String>,
    file: &[u8],
) -> Result<(), String> {
    let found = found.unwrap_or_else(|problem| problem);
    if found == wanted {
        return Ok(());
    }
    let file = hex(file);
    Err(format!("file {file}\nwanted:\n{wanted}found:\n{found}"))
}

/// Does the work for every number below `count`, in two threads, and ends with a problem if there
/// was one.
pub fn for_each(
    count: usize,
    work: impl Fn(usize) -> Result<(), String> + Sync,
) -> Result<(), String> {
    let named = |number| work(number).map_err(|problem| format!("number {number}: {problem}"));
    thread::scope(|scope| {
        let share = |first: usize| (first..count).step_by(THREADS).try_for_each(named);
        let start = |first| scope.spawn(move || share(first));
        let started: Vec<_> = (0..THREADS).map(start).collect();
        let broken_off = || Err(String::from("a thread broke off"));
        started
            .into_iter()
            .try_for_each(|thread| thread.join().unwrap_or_else(|_| broken_off()))
    })
}

/// The same; a problem ends the test.
pub fn check_each(count: usize, work: impl Fn(usize) -> Result<(), String> + Sync) {
    for_each(count, work).unwrap_or_else(|problem| panic!("{problem}"));
}

fn hex(bytes: &[u8]) -> String {
    bytes.iter().map(|byte| format!("{byte:02x}")).collect()
}
