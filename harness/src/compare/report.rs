//! What was compared, and what differed.

use std::any::Any;
use std::collections::BTreeMap;
use std::fmt::{Debug, Write};
use std::panic::{self, AssertUnwindSafe};

use crate::archive::Fence;
use crate::reference::Refusal;

/// How many differing cases are told in full.
const MOST_TOLD: u64 = 20;
/// How many bytes of an input are printed.
const MOST_PRINTED: usize = 4_096;
/// Room for most inputs.
const ROOM: usize = 1 << 20;

pub struct Report {
    whole: bool,
    /// Holds the input of the case under way.
    fence: Fence,
    /// Passed and failed cases by their kind.
    cases: BTreeMap<&'static str, [u64; 2]>,
    answers: Answers,
}

/// Single answers that were compared.
#[derive(Default)]
struct Answers {
    all: u64,
    /// By refusal number; index 0 counts those without one.
    numbers: [u64; 17],
}

/// A case under way.
pub struct Case<'a> {
    answers: &'a mut Answers,
    differences: Vec<String>,
}

impl Report {
    /// Of a whole run, in which every refusal number must be seen, or of part
    /// of one.
    pub fn new(whole: bool) -> Report {
        Report {
            whole,
            fence: Fence::new(ROOM),
            cases: BTreeMap::new(),
            answers: Answers::default(),
        }
    }

    /// Runs one case. `origin` says how to make it again, `input` is its bytes,
    /// which `compare` is handed with nothing readable after them.
    pub fn case(
        &mut self,
        kind: &'static str,
        origin: &str,
        input: &[u8],
        compare: impl FnOnce(&mut Case, &[u8]),
    ) {
        let mut case = Case {
            answers: &mut self.answers,
            differences: Vec::new(),
        };
        let input_held = self.fence.hold(input);
        // What the archive may not touch is asserted: such a panic fails the
        // case, and the others go on.
        let run = panic::catch_unwind(AssertUnwindSafe(|| compare(&mut case, input_held)));
        if let Err(words) = run {
            case.differences.push(format!("panic: {}", told(&*words)));
        }
        let differences = case.differences;
        if !differences.is_empty() && self.failed_cases() < MOST_TOLD {
            println!("{kind}, {origin}\n  input: {}", hex(input));
            println!("  {}", differences.join("\n  "));
        }
        let failed = usize::from(!differences.is_empty());
        self.cases.entry(kind).or_default()[failed] += 1;
    }

    pub fn passed(&self) -> u64 {
        self.cases.values().map(|[passed, _]| passed).sum()
    }

    /// Failed cases, and one for each refusal number that a whole run never saw.
    pub fn failed(&self) -> u64 {
        self.failed_cases() + self.numbers_never_seen().count() as u64
    }

    fn failed_cases(&self) -> u64 {
        self.cases.values().map(|[_, failed]| failed).sum()
    }

    fn numbers_never_seen(&self) -> impl Iterator<Item = usize> + '_ {
        (1..=16).filter(|&number| self.whole && self.answers.numbers[number] == 0)
    }

    /// All counts, without the last line.
    pub fn summary(&self) -> String {
        let Answers { all, numbers } = self.answers;
        let mut lines = vec!["cases by kind (passed, failed)".to_string()];
        lines.extend(
            self.cases
                .iter()
                .map(|(kind, [passed, failed])| format!("{passed:>10} {failed:>6}  {kind}")),
        );
        lines.push(format!("{all:>10} answers compared"));
        lines.push(format!("{:>10} without a refusal", numbers[0]));
        lines.extend((1..=16).map(|i| format!("{:>10} refused {i}", numbers[i])));
        lines.extend(
            self.numbers_never_seen()
                .map(|number| format!("refusal {number} was never seen")),
        );
        lines.join("\n")
    }
}

impl Case<'_> {
    /// Compares one answer.
    pub fn same<T: PartialEq + Debug>(
        &mut self,
        asked: impl FnOnce() -> String,
        reference: &T,
        archive: &T,
    ) {
        self.holds(reference == archive, || {
            format!(
                "{}\n    reference: {reference:?}\n    archive:   {archive:?}",
                asked()
            )
        });
    }

    /// Compares the bytes of a lent buffer, and tells the first that differs.
    pub fn same_bytes(&mut self, asked: impl FnOnce() -> String, reference: &[u8], archive: &[u8]) {
        self.holds(reference == archive, || {
            let at = reference.iter().zip(archive).position(|(a, b)| a != b);
            format!("{}: bytes differ, first at {at:?}", asked())
        });
    }

    /// Counts an answer and notes it down where it is not as it must be.
    pub fn holds(&mut self, holds: bool, told: impl FnOnce() -> String) {
        self.answers.all += 1;
        if !holds {
            self.differences.push(told());
        }
    }

    /// Counts the number an answer was refused with.
    pub fn number(&mut self, number: u8) {
        self.answers.numbers[usize::from(number)] += 1;
    }

    pub fn outcome<T>(&mut self, answer: &Result<T, Refusal>) {
        self.number(answer.as_ref().map_or_else(|refusal| refusal.number, |_| 0));
    }
}

/// The words of a panic.
fn told(words: &(dyn Any + Send)) -> &str {
    let fixed = words.downcast_ref::<&str>().copied();
    let formatted = || words.downcast_ref::<String>().map(String::as_str);
    fixed.or_else(formatted).unwrap_or("without words")
}

fn hex(bytes: &[u8]) -> String {
    let mut digits = String::new();
    for byte in bytes.iter().take(MOST_PRINTED) {
        write!(digits, "{byte:02x}").expect("a String takes everything");
    }
    if bytes.len() > MOST_PRINTED {
        write!(digits, ".. ({} bytes)", bytes.len()).expect("a String takes everything");
    }
    digits
}
