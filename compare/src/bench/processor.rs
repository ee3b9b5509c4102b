//! The processor's name, for the picture.

use std::io::{Error, Result};

/// `BRASSPURSE_PROCESSOR`, or what Linux calls the processor at hand, or its architecture.
pub fn at_hand() -> String {
    told()
        .or_else(model_name)
        .unwrap_or_else(|| std::env::consts::ARCH.to_owned())
}

/// Of times that were measured elsewhere: it must be told.
pub fn elsewhere() -> Result<String> {
    told().ok_or_else(|| {
        Error::other("BRASSPURSE_PROCESSOR must name the processor that the table was measured on")
    })
}

fn told() -> Option<String> {
    let name = std::env::var("BRASSPURSE_PROCESSOR").ok()?;
    Some(name).filter(|name| !name.is_empty())
}

/// Linux has one on x86-64, and none on Arm.
fn model_name() -> Option<String> {
    let text = std::fs::read_to_string("/proc/cpuinfo").ok()?;
    let line = text.lines().find(|line| line.starts_with("model name"))?;
    Some(line.split_once(':')?.1.trim().to_owned())
}
