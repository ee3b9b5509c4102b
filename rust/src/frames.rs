//! One frame: what a word says of it, and a step from the registers in it to the caller's.
//!
//! CFA is the caller's stack pointer after the return. Slots are 8 bytes, little-endian. The return
//! address lies 8 below CFA, except in an arm64 frameless frame, where it is x30.
//!
//! ```
//! # let section = std::fs::read(concat!(env!("CARGO_MANIFEST_DIR"), "/../sections/s.bin"))?;
//! use macho_unwind_info::frames::{RegistersX86_64, Unwound};
//! use macho_unwind_info::UnwindInfo;
//!
//! // rbx, rbp and the return address, as a function with the word 0x01010001 left them.
//! let stack = [0xb0b_u64, 0x7777, 0x5005];
//! let window: Vec<u8> = stack.iter().flat_map(|slot| slot.to_le_bytes()).collect();
//! let base = 0x7000;
//!
//! let image = 0x10_0000;
//! let mut registers = RegistersX86_64 { rip: image + 0x1010, rsp: 0x6f00, saved: [0; 6] };
//! registers.saved[RegistersX86_64::RBP] = 0x7008;
//!
//! let info = UnwindInfo::parse(&section)?;
//! let address = (registers.rip - image) as u32;
//! match info.unwind_x86_64(address, registers, base, &window) {
//!     Ok(Unwound { registers: caller, .. }) => {
//!         assert_eq!((caller.rip, caller.rsp), (0x5005, 0x7018));
//!         assert_eq!(caller.saved[RegistersX86_64::RBX], 0xb0b);
//!     }
//!     Err(refused) => panic!("{}", refused.number()),
//! }
//! # Ok::<(), Box<dyn std::error::Error>>(())
//! ```
//!
//! # What a step gives
//!
//! The registers that the function's caller had when it called, with the return address as `rip` or
//! `pc` and the stack pointer as it is after the return: by proof for every sound word
//! (docs/FORMAT.md, 9), in a function whose prologue is the one that the word describes, stopped
//! after it and before the epilogue, whose body kept to its limits (docs/FORMAT.md, 9.7). Where it is
//! stopped in the prologue or the epilogue itself the answer may be wrong, and is not refused. A word
//! that is not sound is refused.
//!
//! # Where real code differs
//!
//! One sort of arm64 words is read as the original reads it, and does not describe the prologues of
//! real code: **frameless words with pair bits**. Compilers set these bits, 0 to 4 and 8 to 11,
//! where a function without a frame pointer stores pairs below CFA; here they are ignored, and the
//! word is not refused. In all real frames that were tried `pc`, `sp`, x29 and x30 come out right,
//! and the registers that the function stored stay as they are in its body.
//!
//! Of frame-based words of arm64, and of x86_64 words, nothing of the sort was found.

#![forbid(unsafe_code)]

use crate::error::Refusal;
use crate::ffi::{self, RuleAnswer, StepAnswer};

pub use crate::ffi::{RegistersArm64, RegistersX86_64};

/// The register that CFA is counted from.
#[derive(Clone, Copy, Debug, PartialEq, Eq, Hash)]
pub enum CfaRegister {
    /// rsp, or sp.
    StackPointer,
    /// rbp, or x29.
    FramePointer,
}

/// Where a word says that a register was stored.
#[derive(Clone, Copy, Debug, PartialEq, Eq, Hash)]
pub enum Slot {
    /// Nowhere: the register has no slot.
    Absent,
    /// In the slot that begins so many bytes below CFA; they are never 0.
    BelowCfa(u16),
}

/// What a word of x86_64 says of its frame. The return address lies 8 below CFA.
#[derive(Clone, Copy, Debug, PartialEq, Eq, Hash)]
pub struct RuleX86_64 {
    /// Where CFA is counted from.
    pub cfa_register: CfaRegister,
    /// CFA is that register and so many bytes.
    pub cfa_distance: u64,
    /// The slot of each register of [`RegistersX86_64::saved`].
    pub slots: [Slot; 6],
}

/// What a word of arm64 says of its frame. The return address is x30: loaded, if it has a slot.
#[derive(Clone, Copy, Debug, PartialEq, Eq, Hash)]
pub struct RuleArm64 {
    /// Where CFA is counted from.
    pub cfa_register: CfaRegister,
    /// CFA is that register and so many bytes.
    pub cfa_distance: u64,
    /// The slot of each register of [`RegistersArm64::saved`].
    pub slots: [Slot; 20],
}

/// A caller's registers, and the entries that the lookup probed.
#[derive(Clone, Copy, Debug, PartialEq, Eq, Hash)]
pub struct Unwound<R> {
    /// The caller's registers.
    pub registers: R,
    /// As [`probes`](crate::LookupAnswer::probes) gives them.
    pub probes: u32,
}

/// Places in `saved`, and in a rule's `slots`.
impl RegistersX86_64 {
    /// rbx's place.
    pub const RBX: usize = 0;
    /// r12's place.
    pub const R12: usize = 1;
    /// r13's place.
    pub const R13: usize = 2;
    /// r14's place.
    pub const R14: usize = 3;
    /// r15's place.
    pub const R15: usize = 4;
    /// rbp's place.
    pub const RBP: usize = 5;
}

/// Places in `saved`, and in a rule's `slots`.
impl RegistersArm64 {
    /// x19's place; x20 to x28 follow.
    pub const X19: usize = 0;
    /// x29's place.
    pub const X29: usize = 10;
    /// x30's place.
    pub const X30: usize = 11;
    /// d8's place; d9 to d15 follow.
    pub const D8: usize = 12;
}

impl RuleX86_64 {
    /// The rule of a word; refuses with 20 to 25.
    pub fn parse(opcode: u32) -> Result<Self, Refusal> {
        let (cfa_register, cfa_distance, slots) = ruled(ffi::rule_x86_64(opcode))?;
        Ok(RuleX86_64 {
            cfa_register,
            cfa_distance,
            slots,
        })
    }
}

impl RuleArm64 {
    /// The rule of a word; refuses with 20 to 22. Real frameless functions that save registers lay
    /// their frames out otherwise: see [the module](self#where-real-code-differs).
    pub fn parse(opcode: u32) -> Result<Self, Refusal> {
        let (cfa_register, cfa_distance, slots) = ruled(ffi::rule_arm64(opcode))?;
        Ok(RuleArm64 {
            cfa_register,
            cfa_distance,
            slots,
        })
    }
}

type Ruled<const N: usize> = (CfaRegister, u64, [Slot; N]);

fn ruled<const N: usize>(answer: RuleAnswer<N>) -> Result<Ruled<N>, Refusal> {
    match answer.refusal {
        0 => {
            let register = match answer.cfa_register {
                0 => CfaRegister::StackPointer,
                _ => CfaRegister::FramePointer,
            };
            Ok((register, answer.cfa_distance, answer.below.map(slot)))
        }
        refusal => Err(Refusal::from_number(refusal, answer.value)),
    }
}

fn slot(below: u16) -> Slot {
    match below {
        0 => Slot::Absent,
        _ => Slot::BelowCfa(below),
    }
}

/// Undoes one frame of x86_64 by its word; refuses with 20 to 27. `window` is the stack from the
/// address `base` on. Only the slots that the word names have to lie in it.
pub fn step_x86_64(
    opcode: u32,
    registers: RegistersX86_64,
    base: u64,
    window: &[u8],
) -> Result<RegistersX86_64, Refusal> {
    stepped(ffi::step_x86_64(opcode, registers, base, window))
}

/// Undoes one frame of arm64 by its word; refuses with 20 to 22, 26 and 27. `window` is the stack
/// from the address `base` on. Only the slots that the word names have to lie in it.
///
/// In frames of real frameless functions that save registers, some of the caller's registers come
/// out wrong and nothing is refused; `pc` and `sp` are right. See
/// [the module](self#where-real-code-differs).
pub fn step_arm64(
    opcode: u32,
    registers: RegistersArm64,
    base: u64,
    window: &[u8],
) -> Result<RegistersArm64, Refusal> {
    stepped(ffi::step_arm64(opcode, registers, base, window))
}

fn stepped<R>(answer: StepAnswer<R>) -> Result<R, Refusal> {
    match answer.refusal {
        0 => Ok(answer.registers),
        refusal => Err(Refusal::from_number(refusal, answer.value)),
    }
}

#[cfg(test)]
mod tests {
    use super::{RegistersArm64, RegistersX86_64};
    use crate::ffi;
    use crate::inputs::s;

    /// What the types here leave out: the library's slots are all absent.
    #[test]
    fn a_refusal_has_no_slot() {
        for word in [0, 0x0100_0007, 0x0101_0006, 0x0202_0800, 0x0400_0000] {
            let answer = ffi::rule_x86_64(word);
            assert_ne!(answer.refusal, 0, "{word:#010x}");
            assert_eq!(answer.below, [0; 6], "{word:#010x}");
        }
        for word in [0, 0x0100_0101, 0x0300_0101] {
            let answer = ffi::rule_arm64(word);
            assert_ne!(answer.refusal, 0, "{word:#010x}");
            assert_eq!(answer.below, [0; 20], "{word:#010x}");
        }
    }

    /// What the types here leave out: the library hands the registers back as they were.
    #[test]
    fn a_refusal_changes_no_register() {
        let x86_64 = RegistersX86_64 {
            rip: 1,
            rsp: 2,
            saved: [3, 4, 5, 6, 7, 0x7008],
        };
        let mut arm64 = RegistersArm64 {
            pc: 1,
            sp: 2,
            saved: [9; 20],
        };
        arm64.saved[RegistersArm64::X29] = 0x7008;
        let (s, window) = (s(), [0xee; 24]);
        // No function, an error of the lookup, a word that either machine refuses.
        let mut unknown = s.clone();
        unknown[31] = 0x0f;
        let cases = [
            (20, &s[..], 0x1100),
            (11, &s[..79], 0x1040),
            (22, &unknown[..], 0x1000),
        ];
        for (refusal, section, address) in cases {
            let answer = ffi::unwind_x86_64(section, address, x86_64, 0x7000, &window);
            assert_eq!((answer.refusal, answer.registers), (refusal, x86_64));
            let answer = ffi::unwind_arm64(section, address, arm64, 0x7000, &window);
            assert_eq!((answer.refusal, answer.registers), (refusal, arm64));
        }
        // The return address's last byte is missing, and nothing else.
        let short = &window[..23];
        let answer = ffi::step_x86_64(0x0101_0001, x86_64, 0x7000, short);
        assert_eq!((answer.refusal, answer.registers), (27, x86_64));
        let answer = ffi::unwind_x86_64(&s, 0x1000, x86_64, 0x7000, short);
        assert_eq!((answer.refusal, answer.registers), (27, x86_64));
        let answer = ffi::step_arm64(0x0400_0000, arm64, 0x7000, short);
        assert_eq!((answer.refusal, answer.registers), (27, arm64));
        let mut based = s.clone();
        based[28..32].copy_from_slice(&[0, 0, 0, 4]);
        let answer = ffi::unwind_arm64(&based, 0x1000, arm64, 0x7000, short);
        assert_eq!((answer.refusal, answer.registers), (27, arm64));
    }
}
