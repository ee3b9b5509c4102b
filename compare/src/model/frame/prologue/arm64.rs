//! arm64's prologues.

use super::{Prologue, Running};
use crate::model::frame::arm64::{PAIRS, PAIR_BITS, X29, X30};
use crate::random::Random;

/// Size in sixteens.
enum Made {
    Frameless { size: u32 },
    FrameBased { pairs: [bool; 9] },
}

/// A frame whose size, where it has one, is at most so many sixteens, up to 4,095.
pub fn any(random: &mut Random, sixteens: u32) -> Box<dyn Prologue<20>> {
    if random.below(4) == 0 {
        frameless(random, sixteens)
    } else {
        frame_based(random, sixteens)
    }
}

pub fn frameless(random: &mut Random, sixteens: u32) -> Box<dyn Prologue<20>> {
    let size = random.below(sixteens + 1);
    Box::new(Made::Frameless { size })
}

pub fn frame_based(random: &mut Random, _: u32) -> Box<dyn Prologue<20>> {
    let pairs = std::array::from_fn(|_| random.below(2) == 0);
    Box::new(Made::FrameBased { pairs })
}

impl Prologue<20> for Made {
    fn word(&self, noise: u32) -> u32 {
        match self {
            Made::Frameless { size } => noise & 0xf000_0fff | 2 << 24 | size << 12,
            Made::FrameBased { pairs } => {
                let pairs = PAIR_BITS.into_iter().zip(pairs);
                let pairs = pairs.map(|(bit, &pair)| u32::from(pair) << bit);
                noise & 0xf0ff_f0e0 | 4 << 24 | pairs.sum::<u32>()
            }
        }
    }

    fn bytes(&self) -> u64 {
        match self {
            Made::Frameless { size } => 16 * u64::from(*size),
            Made::FrameBased { pairs } => {
                16 + 16 * pairs.iter().filter(|&&pair| pair).count() as u64
            }
        }
    }

    fn call(&self, running: &mut Running<20>, return_address: u64) {
        running.registers.saved[X30] = return_address;
    }

    fn run(&self, running: &mut Running<20>) {
        let cfa = running.registers.sp;
        match self {
            Made::Frameless { size } => running.anchor_stack_pointer(cfa - 16 * u64::from(*size)),
            Made::FrameBased { pairs } => {
                running.store(cfa - 8, X30);
                running.store(cfa - 16, X29);
                running.anchor(X29, cfa - 16);
                let mut place = cfa - 16;
                let listed = PAIRS.into_iter().zip(*pairs).filter(|&(_, listed)| listed);
                for (lower, _) in listed {
                    for register in [lower, lower + 1] {
                        place -= 8;
                        running.store(place, register);
                    }
                }
            }
        }
    }
}
