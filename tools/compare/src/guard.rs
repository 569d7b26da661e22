//! A panic, of tl or of this program, is a finding like any other.
use crate::findings::{Difference, Findings};
use crate::question::Question;
use std::any::Any;
use std::panic::{catch_unwind, AssertUnwindSafe};

pub fn guarded(compare: impl FnOnce() -> Findings) -> Findings {
    // Nothing that a comparison changes is looked at after it has panicked.
    catch_unwind(AssertUnwindSafe(compare)).unwrap_or_else(|panic| {
        let mut found = Findings::default();
        found.differ(Difference {
            question: Question::Panic,
            ours: message(&panic),
            paper: String::from("none"),
            tl: None,
        });
        found
    })
}

fn message(panic: &Box<dyn Any + Send>) -> String {
    let text = panic.downcast_ref::<&str>().map(|text| text.to_string());
    let text = text.or_else(|| panic.downcast_ref::<String>().cloned());
    text.unwrap_or_else(|| String::from("without a message"))
}
