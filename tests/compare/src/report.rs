//! The report: one line per comparison group, a total, and the last line.

use std::process::ExitCode;

/// The inputs of one group so far; the first differing case ends the group.
#[derive(Default)]
pub struct Group {
    pub inputs: u64,
}

pub type Outcome = Result<(), String>;

pub struct Report {
    least: u64,
    inputs: u64,
    passed: u32,
    failed: u32,
}

impl Report {
    /// The report of a run that must compare at least this many inputs.
    pub fn new(least: u64) -> Report {
        Report {
            least,
            inputs: 0,
            passed: 0,
            failed: 0,
        }
    }

    /// Runs a group and prints its line. A group without inputs has failed.
    pub fn group(&mut self, name: &str, run: impl FnOnce(&mut Group) -> Outcome) {
        let mut group = Group::default();
        let mut outcome = run(&mut group);
        if outcome.is_ok() && group.inputs == 0 {
            outcome = Err("no inputs".into());
        }
        self.line(name, group.inputs, outcome);
    }

    /// Prints the line of a group that compares no inputs of its own.
    pub fn fact(&mut self, name: &str, outcome: Outcome) {
        self.line(name, 0, outcome);
    }

    fn line(&mut self, name: &str, inputs: u64, outcome: Outcome) {
        self.inputs += inputs;
        match outcome {
            Ok(()) => {
                self.passed += 1;
                println!("ok  {name}  ({inputs} inputs)");
            }
            Err(difference) => {
                self.failed += 1;
                println!("FAIL {name}: {difference}");
            }
        }
    }

    /// Prints the total and the last line.
    pub fn finish(self) -> ExitCode {
        let enough = self.inputs >= self.least;
        let note = if enough { "" } else { ", too few" };
        println!("total {} inputs{note}", self.inputs);
        println!("{} passed, {} failed", self.passed, self.failed);
        ExitCode::from(u8::from(self.failed > 0 || !enough))
    }
}

/// Bytes in hex, all of them.
pub fn all_hex(bytes: &[u8]) -> String {
    let all: Vec<String> = bytes.iter().map(|b| format!("{b:02X}")).collect();
    all.join(" ")
}

/// Bytes in hex; long lists are cut in the middle.
pub fn hex(bytes: &[u8]) -> String {
    let n = bytes.len();
    if n <= 600 {
        return format!("[{}]", all_hex(bytes));
    }
    let (front, back) = (all_hex(&bytes[..300]), all_hex(&bytes[n - 300..]));
    format!("[{front} .. {back}] ({n} bytes)")
}
