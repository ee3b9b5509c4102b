//! Release 0.5.0 once more, built to check sums for overflow; it is asked of sections alone.

use macho_checked as macho;

const NAME: &str = "0.5.0 checked";
const CHECKS_SUMS: bool = true;

include!("section_answers.rs");
