//! A test of the test: a run against this program playing the others finds no difference, and finds
//! one as soon as the played programs are wrong in any of the ways that they can be.

use std::process::{Command, ExitStatus};

fn run(fault: usize) -> (ExitStatus, String) {
    let output = Command::new(env!("CARGO_BIN_EXE_second"))
        .args(["--self", "--seed", "1", "--histories", "300"])
        .args(["--frames", "100", "--fault", &fault.to_string()])
        .output()
        .expect("the program starts");
    let text = String::from_utf8_lossy(&output.stdout).into_owned();
    (output.status, text)
}

#[test]
fn right_programs_pass() {
    let (status, text) = run(0);
    assert!(status.success(), "{text}");
}

#[test]
fn each_fault_is_noticed() {
    let mut faults = 0;
    for fault in 1.. {
        let (status, text) = run(fault);
        if status.code() == Some(2) {
            break;
        }
        assert_eq!(status.code(), Some(1), "fault {fault}: {text}");
        assert!(text.contains("DIFFERENCE: seed 1"), "fault {fault}: {text}");
        faults += 1;
    }
    assert!(faults >= 41, "only {faults} faults");
}
