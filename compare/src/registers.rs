//! `RegisterNameX86_64::parse`, then the number in its DWARF name, over all bytes.

use crate::ffi;
use crate::model::frame::named::Named;
use crate::oracle::{told, Release, RELEASES};
use crate::tally::{Report, Tally};

pub fn compare(report: &mut Report) {
    let mut model = Tally::new("x86_64 registers, model");
    for n in 0..=u8::MAX {
        let theirs = Named::by(n.into()).told();
        model.check(|| input(n), ffi::register_x86_64(n), theirs);
    }
    report.add(model);
    for release in &RELEASES {
        let mut tally = Tally::new(format!("x86_64 registers, {}", release.name));
        for n in 0..=u8::MAX {
            let ours = told::register(ffi::register_x86_64(n));
            tally.check(|| input(n), ours, (release.register_x86_64)(n));
        }
        report.add(tally);
        report.add_listed(told_apart(release));
    }
}

/// The numbers above all registers, each beside 0: whether both have one answer.
fn told_apart(release: &Release) -> Tally {
    let mut tally = Tally::new(format!("x86_64 registers, 0 and above 6, {}", release.name));
    for n in 7..=u8::MAX {
        tally.check(
            || format!("numbers 0 and {n}, alike"),
            ffi::register_x86_64(0) == ffi::register_x86_64(n),
            (release.register_x86_64)(0) == (release.register_x86_64)(n),
        );
    }
    tally
}

fn input(n: u8) -> String {
    format!("number {n}")
}
