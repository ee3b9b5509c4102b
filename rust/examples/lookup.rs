//! Looks an address up in a section: `lookup SECTION ADDRESS`, the address in hex.

#![forbid(unsafe_code)]

use macho_unwind_info::{Error, UnwindInfo};

fn main() -> Result<(), Box<dyn std::error::Error>> {
    let arguments: Vec<String> = std::env::args().skip(1).collect();
    let (section, address) = match &arguments[..] {
        [section, address] => (std::fs::read(section)?, u32::from_str_radix(address, 16)?),
        _ => return Err("usage: lookup SECTION ADDRESS".into()),
    };
    match look_up(&section, address) {
        Ok(line) => println!("{line}"),
        Err(error) => println!("refused {}", error.number()),
    }
    Ok(())
}

fn look_up(section: &[u8], address: u32) -> Result<String, Error> {
    let function = UnwindInfo::parse(section)?.lookup(address)?;
    Ok(function.map_or("none".to_owned(), |f| {
        let (start, end, opcode) = (f.start_address, f.end_address, f.opcode);
        format!("{start:08x} {end:08x} {opcode:08x}")
    }))
}
