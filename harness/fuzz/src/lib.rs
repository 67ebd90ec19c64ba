//! A libFuzzer target. The bytes are a file: all that can be asked of it is
//! asked of the archive and of the reference, from made-up places as well, and
//! the first difference ends the run.
//!
//! The reference is compiled with counters, so the fuzzer is led by the
//! branches that it takes.

use std::cell::RefCell;

use cgx_harness::compare::{self, Report};
use cgx_harness::generate::Rng;
use cgx_harness::reference::{self, Place, Step};

thread_local! {
    static REPORT: RefCell<Report> = RefCell::new(Report::new(false));
}

/// # Safety
/// `data` points to `len` bytes.
#[no_mangle]
pub unsafe extern "C" fn LLVMFuzzerTestOneInput(data: *const u8, len: usize) -> i32 {
    let input = match len {
        0 => &[],
        _ => std::slice::from_raw_parts(data, len),
    };
    REPORT.with_borrow_mut(|report| {
        report.case("fuzzed file", "by libFuzzer", input, compare_all);
        if report.failed() > 0 {
            std::process::abort();
        }
    });
    0
}

fn compare_all(case: &mut compare::Case, file: &[u8]) {
    let mut rng = Rng::new(file.len() as u64);
    compare::whole_file(case, file, &mut rng);
    compare::made_up_places(case, file, &offsets(file), &mut rng);
    compare::made_up_lists(case, file, &mut rng);
    compare::reals_in(case, file);
}

/// Where the records begin that a walk reaches.
fn offsets(file: &[u8]) -> Vec<usize> {
    let mut place = Place::START;
    let mut offsets = Vec::new();
    while let Step::Record(view, next) = reference::step(file, place) {
        offsets.push(view.offset);
        place = next;
    }
    offsets
}
