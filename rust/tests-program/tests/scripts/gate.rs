//! The script `test`: its last line of standard output says 'N passed, 0 failed' only where every
//! step passed.

use tests_program::stage::{Ended, Stage};

/// A library whose function has a contract, and a program whose function has none.
const LIBRARY: &str = "pub fn two() -> u32\n    ensures { result ≡ 2 }\n{\n    2\n}\n";
const PROGRAM: &str = "pub fn show(n: u32) {\n    print(n);\n}\n";
const PROOF: &str = "crates/numbers/proofs/two/Answers.antt";

/// Commands that pass; each fails where a file of the step's name is there.
fn stage() -> Stage {
    let stage = Stage::new("test");
    stage.write("crates/numbers/src/lib.rt", LIBRARY);
    stage.write(
        PROOF,
        "pub returns : goal.returns\nreturns g = search rules\n",
    );
    stage.write("crates/rows/src/main.rt", PROGRAM);
    stage.write("kit.txt", "kit 1\n");
    stage.write("rust/README.md", "");
    stage.script(
        "tools/rt",
        "case $1 in\n\
         version) echo kit 1 ;;\n\
         ci) echo crates; [ ! -e count ] || { echo '4 passed, 1 failed'; exit 0; }\n\
         bad=; [ ! -e bad ] || bad=', 2 bad'\n\
         echo \"rt: ok; handles allowed: none; must-fail edits: 3 refused$bad; all done in this run\"\n\
         echo '5 passed, 0 failed' ;;\n\
         esac\n\
         [ ! -e \"rt-$1\" ]",
    );
    stage.script(
        "tools/cargo",
        "[ $# -eq 2 ] && [ \"$2\" = --version ] && exit 0\n\
         if [ \"$1\" = test ]; then\n\
         echo 'test result: ok. 3 passed; 0 failed; 0 ignored'\n\
         echo 'test result: ok. 4 passed; 0 failed; 0 ignored'\n\
         [ ! -e ../skipped ] || echo 'SKIPPED: tests/library/layout.c' >&2\n\
         fi\n\
         [ ! -e \"../cargo-$1\" ]",
    );
    for compiler in ["cc", "c++"] {
        stage.script(&format!("tools/{compiler}"), "true");
    }
    for made in ["program", "archive"] {
        let lines = format!("[ ! -e scripts-{made} ]");
        stage.script(&format!("scripts/{made}"), &lines);
    }
    stage.script("examples/run", "echo 5 samples; [ ! -e examples-run ]");
    stage.script("python/build", "[ ! -e python-build ]");
    stage.script(
        "tools/python3",
        "echo 'Ran 9 tests in 0.1s' >&2\n\
         echo 'OK (skipped=2)' >&2\n\
         [ ! -e ../python-tests ]",
    );
    stage.script("ns3/test", "echo 'ns3/test: 6 passed'; [ ! -e ns3-tests ]");
    stage
}

fn has_verdict(line: &str) -> bool {
    let words: Vec<&str> = line.split(' ').collect();
    matches!(words[..], [number, "passed,", _, "failed"] if number.parse::<u32>().is_ok())
}

fn check_failed(ended: &Ended, step: &str) {
    assert_ne!(ended.status, Some(0), "{step}: {ended:?}");
    assert!(
        ended.last_line().starts_with("test: FAILED at "),
        "{step}: {ended:?}"
    );
    assert!(!ended.out.lines().any(has_verdict), "{step}: {ended:?}");
}

#[test]
fn all_passed() {
    let stage = stage();
    let ended = stage.run(&[]);
    assert_eq!(ended.status, Some(0), "{ended:?}");
    assert_eq!(ended.last_line(), "25 passed, 0 failed");
    assert_eq!(
        ended.out.lines().filter(|line| has_verdict(line)).count(),
        1
    );
}

#[test]
fn another_kit_than_that_of_the_last_proof_is_named_and_no_fault() {
    let stage = stage();
    let named = |ended: &Ended| -> Vec<String> {
        assert_eq!(
            (ended.status, ended.last_line()),
            (Some(0), "25 passed, 0 failed"),
            "{ended:?}"
        );
        assert!(!ended.err.contains("kit"), "{ended:?}");
        let lines = ended.out.lines().filter(|line| line.contains("kit"));
        lines.map(str::to_owned).collect()
    };
    assert!(named(&stage.run(&[])).is_empty());
    stage.write("kit.txt", "kit 0\n");
    let said = "test: the kit is kit 1; the one of the last proof was kit 0";
    assert_eq!(named(&stage.run(&[])), [said]);
}

#[test]
fn a_step_that_failed_is_the_last_line() {
    for step in [
        "rt-version",
        "cargo-fmt",
        "cargo-clippy",
        "rt-ci",
        "count",
        "bad",
        "scripts-program",
        "scripts-archive",
        "cargo-test",
        "skipped",
        "examples-run",
        "python-build",
        "python-tests",
        "ns3-tests",
    ] {
        let stage = stage();
        stage.write(step, "");
        check_failed(&stage.run(&[]), step);
    }
}

#[test]
fn cc_in_the_proof_of_a_function_is_named() {
    for proof in ["Answers", "Invariants", "Proof"].map(|file| PROOF.replace("Answers", file)) {
        let stage = stage();
        stage.write(&proof, "two = cc\n");
        let ended = stage.run(&[]);
        check_failed(&ended, "cc");
        assert!(ended.err.contains(&proof), "{ended:?}");
    }
}

#[test]
fn functions_that_other_crates_can_call_have_contracts() {
    let stage = stage();
    let of = |text: &str| {
        stage.write("crates/numbers/src/part/more.rt", text);
        stage.run(&[])
    };
    let kept = "    ensures { result ≡ n }\n{\n    n\n}\n";
    let narrow = format!("(n: u32) -> u32\n    requires {{ n ≤ 3 }}\n{kept}");
    let narrow_under = |word: &str| format!("pub fn few{}", narrow.replace("requires", word));
    for (text, wrong) in [
        (String::from(PROGRAM), "1: show has no `ensures`"),
        (
            String::from("pub extern \"C\" fn end() {}\n"),
            "1: end has no `ensures`",
        ),
        (
            format!(
                "// As n.\npub fn same(\n    n: u32,\n) -> u32 {{\n    n\n}}\n\nfn own(n: u32) -> u32\n{kept}"
            ),
            "2: same has no `ensures`",
        ),
        (
            String::from("impl Row {\n    pub fn end(self) // ensures { nothing }\n    {}\n}\n"),
            "2: end has no `ensures`",
        ),
        (format!("pub fn few{narrow}"), "1: few has a `requires`"),
        (narrow_under("requires small"), "1: few has a `requires`"),
        (narrow_under("requires*"), "1: few has a `requires`"),
    ] {
        let ended = of(&text);
        check_failed(&ended, &text);
        let named = format!("test: crates/numbers/src/part/more.rt:{wrong}\n");
        assert_eq!(ended.err, named, "{text}");
        assert!(ended.last_line().contains("for each function"), "{ended:?}");
    }
    let named = kept.replace("ensures", "ensures same");
    let inside = format!(
        "pub(crate) fn few{narrow}\nfn own{narrow}\npub fn same(n: u32) -> u32\n{kept}\n\
         pub fn again(n: u32) -> u32\n{named}"
    );
    let ended = of(&inside);
    assert_eq!(ended.status, Some(0), "{ended:?}");
}

#[test]
fn no_function_at_all_is_no_pass() {
    let stage = stage();
    stage.write("crates/numbers/src/lib.rt", "pub mod more;\n");
    check_failed(&stage.run(&[]), "no function");
}

#[test]
fn a_missing_tool_is_named() {
    let stage = stage();
    for variable in ["CC", "CXX"] {
        let ended = stage.ended(stage.command().env(variable, "no-such-compiler"));
        check_failed(&ended, variable);
        assert!(ended.last_line().contains("no-such-compiler"), "{ended:?}");
    }
    std::fs::remove_file(stage.path("tools/rt")).expect("a command");
    let ended = stage.run(&[]);
    check_failed(&ended, "no rt");
    assert!(ended.last_line().contains("'rt'"), "{ended:?}");
}

#[test]
fn python_tests_that_did_not_run_are_no_pass() {
    let stage = stage();
    for (said, passed) in [
        ("Ran 1 test in 0.1s\\nOK", Some("19 passed, 0 failed")),
        ("Ran 9 tests in 0.1s\\n\\nOK", Some("27 passed, 0 failed")),
        ("no tests", None),
    ] {
        stage.script("tools/python3", &format!("printf '{said}\\n' >&2"));
        let ended = stage.run(&[]);
        match passed {
            Some(passed) => assert_eq!(ended.last_line(), passed),
            None => check_failed(&ended, said),
        }
    }
}

#[test]
fn without_ns_3_its_queue_disc_is_not_tested_and_a_line_says_so() {
    let stage = stage();
    stage.copy("ns3/test");
    stage.script("tools/cmake", "true");
    stage.script("tools/c++", "[ \"$1\" != -E ]");
    let ended = stage.run(&[]);
    assert_eq!(
        (ended.status, ended.last_line()),
        (Some(0), "19 passed, 0 failed"),
        "{ended:?}"
    );
    let said = ended.out.lines().filter(|line| line.contains("ns-3"));
    assert_eq!(
        said.collect::<Vec<_>>(),
        [
            "test: the queue disc for ns-3",
            "ns3/test: not run, since ns-3 or cmake is not there; Debian has them as libns3-dev and cmake"
        ]
    );
    // With ns-3 it wants the archive, which the stage has not.
    stage.script("tools/c++", "true");
    let ended = stage.run(&[]);
    check_failed(&ended, "no archive");
    assert!(ended.out.contains("scripts/archive\n"), "{ended:?}");
}

#[test]
fn a_queue_disc_whose_tests_are_not_counted_is_no_pass() {
    let stage = stage();
    for lines in [
        "true",
        "echo 'ns3/test: 6 passed'; echo more",
        "exit 1",
        "exit 78",
    ] {
        stage.script("ns3/test", lines);
        check_failed(&stage.run(&[]), lines);
    }
}
