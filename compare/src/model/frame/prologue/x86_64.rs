//! x86_64's prologues.

use super::{Prologue, Running};
use crate::model::frame::arrangements::number;
use crate::model::frame::x86_64::RBP;
use crate::random::Random;

/// Offset and size in eights; registers by their numbers, 1 rbx to 6 rbp.
enum Made {
    FrameBased { offset: u32, fields: [u8; 5] },
    Immediate { size: u32, list: Vec<u8> },
}

/// A frame of at most so many eights, up to 255.
pub fn any(random: &mut Random, eights: u32) -> Box<dyn Prologue<6>> {
    Box::new(if random.below(2) == 0 {
        frame_based_of(random, eights)
    } else {
        immediate_of(random, eights)
    })
}

pub fn frame_based(random: &mut Random, eights: u32) -> Box<dyn Prologue<6>> {
    Box::new(frame_based_of(random, eights))
}

pub fn immediate(random: &mut Random, eights: u32) -> Box<dyn Prologue<6>> {
    Box::new(immediate_of(random, eights))
}

fn frame_based_of(random: &mut Random, eights: u32) -> Made {
    let most = if random.below(2) == 0 { 7 } else { eights };
    let offset = random.below(most + 1);
    let mut fields = [1, 2, 3, 4, 5];
    random.shuffle(&mut fields);
    for (k, field) in (0..).zip(&mut fields) {
        if k >= offset || random.below(4) == 0 {
            *field = 0;
        }
    }
    Made::FrameBased { offset, fields }
}

fn immediate_of(random: &mut Random, eights: u32) -> Made {
    let mut list = vec![1, 2, 3, 4, 5, 6];
    random.shuffle(&mut list);
    list.truncate(random.below(7) as usize);
    let least = 1 + list.len() as u32;
    let most = if random.below(2) == 0 {
        least + 2
    } else {
        eights
    };
    let size = least + random.below(most - least + 1);
    Made::Immediate { size, list }
}

impl Prologue<6> for Made {
    fn word(&self, noise: u32) -> u32 {
        match self {
            Made::FrameBased { offset, fields } => {
                let fields = (0..)
                    .zip(fields)
                    .map(|(k, &field)| u32::from(field) << (3 * k));
                noise & 0xf000_8000 | 1 << 24 | offset << 16 | fields.sum::<u32>()
            }
            Made::Immediate { size, list } => {
                let count = list.len() as u32;
                // With no registers the number is ignored too.
                let number = if count == 0 {
                    noise & 1023
                } else {
                    number(list)
                };
                noise & 0xf000_e000 | 2 << 24 | size << 16 | count << 10 | number
            }
        }
    }

    fn bytes(&self) -> u64 {
        match self {
            Made::FrameBased { offset, .. } => 16 + 8 * u64::from(*offset),
            Made::Immediate { size, .. } => 8 * u64::from(*size),
        }
    }

    fn call(&self, running: &mut Running<6>, return_address: u64) {
        running.push(return_address);
    }

    fn run(&self, running: &mut Running<6>) {
        let cfa = running.registers.sp + 8;
        match self {
            Made::FrameBased { offset, fields } => {
                running.push_register(RBP);
                running.anchor(RBP, running.registers.sp);
                let lowest = cfa - 16 - 8 * u64::from(*offset);
                for (k, &field) in (0..).zip(fields).filter(|(_, &field)| field != 0) {
                    running.store(lowest + 8 * k, usize::from(field) - 1);
                }
            }
            Made::Immediate { size, list } => {
                for &register in list.iter().rev() {
                    running.push_register(usize::from(register) - 1);
                }
                running.anchor_stack_pointer(cfa - 8 * u64::from(*size));
            }
        }
    }
}
