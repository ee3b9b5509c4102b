//! What the Rust says of sections: both releases, and 0.5.0 built to check sums for overflow.

use super::{checked_0_5_0, release_0_3_0, release_0_5_0};
use crate::ffi::section::{LookupAnswer, NextAnswer, ParseAnswer, FOUND, NONE, REFUSED};
use std::any::Any;
use std::fmt::{Debug, Formatter};
use std::panic::{catch_unwind, AssertUnwindSafe};
use std::sync::Once;

/// One build of the crate.
pub struct Build {
    pub name: &'static str,
    /// Whether it panics where ours refuses with 13; the others wrap there.
    pub checks_sums: bool,
    pub parse: fn(&[u8]) -> ParseAnswer,
    pub open: for<'a> fn(&'a [u8]) -> Option<Box<dyn View<'a> + 'a>>,
}

pub static BUILDS: [Build; 3] = [
    release_0_3_0::BUILD,
    release_0_5_0::BUILD,
    checked_0_5_0::BUILD,
];

/// An `UnwindInfo`.
pub trait View<'a> {
    fn address_range(&self) -> (u32, u32);
    fn lookup(&self, address: u32) -> Told;
    fn functions(&self) -> Box<dyn Functions + 'a>;
}

/// A `FunctionIter`. It takes a function off its list before it computes anything, so after a
/// panic it stands where our cursor stands after 13 and 14 (docs/FORMAT.md, 5.3): one index on.
pub trait Functions {
    fn next(&mut self) -> Told;
}

/// One answer as far as the Rust tells it: no probes, no cursor, and not where a function came
/// from.
#[derive(Clone, Copy, PartialEq, Eq)]
pub struct Told {
    pub outcome: u8,
    pub refusal: u8,
    pub start: u32,
    pub end: u32,
    pub opcode: u32,
    /// There was no answer; `refusal` is our number for the cause.
    pub panicked: bool,
}

/// `refusal` of a panic that no refusal has a number for.
const OTHER_PANIC: u8 = 255;

impl Told {
    pub const NOTHING: Told = Told {
        outcome: NONE,
        refusal: 0,
        start: 0,
        end: 0,
        opcode: 0,
        panicked: false,
    };

    pub fn refused(refusal: u8) -> Told {
        Told {
            outcome: REFUSED,
            refusal,
            ..Told::NOTHING
        }
    }

    /// The answer of a call that may panic.
    pub fn by(ask: impl FnOnce() -> Told) -> Told {
        catch_unwind(AssertUnwindSafe(ask)).unwrap_or_else(|panic| Told {
            panicked: true,
            ..Told::refused(cause(&*panic))
        })
    }

    /// A panic taken as the refusal it stands for.
    pub fn with_panic_as_refusal(self) -> Told {
        Told {
            panicked: false,
            ..self
        }
    }
}

impl Debug for Told {
    fn fmt(&self, f: &mut Formatter) -> std::fmt::Result {
        match (self.outcome, self.panicked) {
            (NONE, _) => write!(f, "none"),
            (FOUND, _) => write!(
                f,
                "{:#x}..{:#x} {:#010x}",
                self.start, self.end, self.opcode
            ),
            (REFUSED, false) => write!(f, "refused {}", self.refusal),
            (REFUSED, true) => write!(f, "panic {}", self.refusal),
            (outcome, _) => write!(f, "outcome {outcome}"),
        }
    }
}

impl From<LookupAnswer> for Told {
    fn from(answer: LookupAnswer) -> Told {
        Told {
            outcome: answer.outcome,
            refusal: answer.refusal,
            start: answer.start,
            end: answer.end,
            opcode: answer.opcode,
            panicked: false,
        }
    }
}

impl From<NextAnswer> for Told {
    fn from(answer: NextAnswer) -> Told {
        Told {
            outcome: answer.outcome,
            refusal: answer.refusal,
            start: answer.start,
            end: answer.end,
            opcode: answer.opcode,
            panicked: false,
        }
    }
}

fn cause(panic: &(dyn Any + Send)) -> u8 {
    let message = panic
        .downcast_ref::<&str>()
        .copied()
        .or_else(|| panic.downcast_ref::<String>().map(String::as_str))
        .unwrap_or("");
    if message == "attempt to add with overflow" {
        13
    } else if message.starts_with("index out of bounds") {
        14
    } else {
        OTHER_PANIC
    }
}

/// Has panics of the crate say nothing; all others still do.
pub fn silence_panics() {
    static SILENCED: Once = Once::new();
    SILENCED.call_once(|| {
        let loud = std::panic::take_hook();
        std::panic::set_hook(Box::new(move |panic| {
            let file = panic.location().map_or("", |place| place.file());
            if !file.contains("macho-unwind-info") {
                loud(panic);
            }
        }));
    });
}
