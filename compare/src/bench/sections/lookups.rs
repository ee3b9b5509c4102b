//! Lookups, one address at a time.

use super::made::Measured;
use super::{differ, parsed};
use crate::bench::table::Table;
use crate::ffi::section::{self as ours, FOUND};
use crate::oracle::release_0_5_0::macho::UnwindInfo;
use crate::oracle::section::{Told, View};
use std::io::Result;

/// All sides have the same function for each address that is measured.
pub fn agree(measured: &Measured) -> Result<()> {
    let section = &measured.bytes[..];
    let (lists, rust) = (ours::parse(section).lists, parsed(section));
    for &address in &measured.addresses {
        let answer = ours::lookup_in(section, lists, address);
        if answer.outcome != FOUND
            || ours::lookup(section, address) != answer
            || View::lookup(&rust, address) != Told::from(answer)
        {
            let said = format!("the answers at {address:#x} differ");
            return Err(differ(measured, said));
        }
    }
    Ok(())
}

pub fn measure(table: &Table, measured: &Measured) {
    let Measured { name, .. } = measured;
    let (section, addresses) = (&measured.bytes[..], &measured.addresses[..]);
    let lists = ours::parse(section).lists;
    table.row(
        &format!("lookup, {name}"),
        addresses,
        move |address| ours::lookup_in(section, lists, address),
        || {
            let info = parsed(section);
            move |address| info.lookup(address)
        },
    );
    table.row(
        &format!("parse and lookup, {name}"),
        addresses,
        move |address| ours::lookup(section, address),
        || move |address| UnwindInfo::parse(section).and_then(|info| info.lookup(address)),
    );
}
