//! Reads hypercalls from a guest's registers, and serves the MSRs and CPUID leaves that each hypervisor needs
//! (TLFS 4.0, "Hypercall Interface" and "Feature and Interface Discovery"). It is plain code over plain
//! structs, as `include/hvpm_guest.h` is: no function here touches a machine or guest memory, or injects
//! anything.
//!
//! ```
//! # use hvpm::guest::Cpu;
//! # fn inject_undefined_opcode() {}
//! # fn serve(call: hvpm::Registers) -> u64 { call.rcx }
//! let mut cpu = Cpu { rcx: 0x46, is_64_bit: true, is_protected: true, ..Cpu::default() };
//! match cpu.call() {
//!     None => inject_undefined_opcode(), // there is no event
//!     Some(call) => cpu.finish(serve(call)),
//! }
//! ```

/// A guest's processor at the instruction of a hypercall: the general registers that a convention uses, and
/// the mode. Outside 64-bit code, the upper halves of the registers are ignored.
#[allow(missing_docs)]
#[derive(Clone, Copy, Debug, Default, PartialEq, Eq)]
pub struct Cpu {
    pub rax: u64,
    pub rbx: u64,
    pub rcx: u64,
    pub rdx: u64,
    pub rsi: u64,
    pub rdi: u64,
    pub r8: u64,
    /// It executes 64-bit code: EFER.LMA and the L bit of CS are 1.
    pub is_64_bit: bool,
    /// CR0.PE is 1.
    pub is_protected: bool,
    /// The current privilege level, 0 to 3: the DPL of SS.
    pub cpl: u8,
}

/// The registers of a hypercall, whatever its convention.
#[derive(Clone, Copy, Debug, Default, PartialEq, Eq)]
pub struct Registers {
    /// The input value.
    pub rcx: u64,
    /// The address of the input list, or the first 8 bytes of a fast call's input.
    pub rdx: u64,
    /// The address of the output list, or the second 8 bytes of a fast call's input.
    pub r8: u64,
}

/// Joins two 32-bit registers.
const fn pair(high: u64, low: u64) -> u64 {
    (high << 32) | (low & 0xFFFF_FFFF)
}

impl Cpu {
    /// Reads a hypercall from the registers, by the convention of the code that makes it.
    ///
    /// | | 64-bit code | any other code |
    /// |---|---|---|
    /// | input value | RCX | EDX:EAX |
    /// | input list, or fast input 0 to 7 | RDX | EBX:ECX |
    /// | output list, or fast input 8 to 15 | R8 | EDI:ESI |
    ///
    /// `None` if the processor may not call: its CPL isn't 0, or it is in real mode. Inject #UD then, with
    /// RIP at the instruction. The machine takes no event.
    #[must_use]
    pub const fn call(&self) -> Option<Registers> {
        if self.cpl != 0 || !self.is_protected {
            return None;
        }
        Some(if self.is_64_bit {
            Registers { rcx: self.rcx, rdx: self.rdx, r8: self.r8 }
        } else {
            Registers {
                rcx: pair(self.rdx, self.rax),
                rdx: pair(self.rbx, self.rcx),
                r8: pair(self.rdi, self.rsi),
            }
        })
    }

    /// Ends a hypercall with its result: RAX, or EDX:EAX outside 64-bit code. It is the result of the last
    /// element. No other register changes. Then advance RIP past the instruction.
    pub const fn finish(&mut self, result: u64) {
        if self.is_64_bit {
            self.rax = result;
        } else {
            self.rax = result & 0xFFFF_FFFF;
            self.rdx = result >> 32;
        }
    }

    /// Lets the guest make the call again: when the host had no memory, or for the rest of a rep call, whose
    /// start index stands in `call.rcx`. The input value goes back to RCX, or to EDX:EAX outside 64-bit code.
    /// Leave RIP at the instruction; the guest may take an interrupt first.
    pub const fn again(&mut self, call: &Registers) {
        if self.is_64_bit {
            self.rcx = call.rcx;
        } else {
            self.finish(call.rcx);
        }
    }
}

impl Registers {
    /// The call code.
    const fn code(&self) -> u64 {
        self.rcx & 0xFFFF
    }

    /// Whether the call is fast: its input is RDX and R8, and it has no list.
    #[must_use]
    pub const fn is_fast(&self) -> bool {
        (self.rcx >> 16) & 1 == 1
    }

    /// Returns whether the call has an input list in memory, at `rdx`. A fast call has none, nor has
    /// HvGetPartitionId, nor a code that the machine doesn't know.
    #[must_use]
    pub const fn has_input(&self) -> bool {
        let has =
            matches!(self.code(), 0x40..=0x45 | 0x47..=0x4A | 0x4E..=0x51 | 0x58 | 0x5B..=0x5D | 0x95 | 0x96);
        !self.is_fast() && has
    }

    /// Returns whether the call has an output list in memory, at `r8`. A fast call has none.
    #[must_use]
    pub const fn has_output(&self) -> bool {
        !self.is_fast() && matches!(self.code(), 0x40 | 0x44 | 0x46 | 0x47 | 0x49 | 0x4A | 0x50)
    }

    /// Returns the result value for a call with a list that isn't in the guest's memory:
    /// HV_STATUS_INVALID_ALIGNMENT, with the start index as the number of completed repetitions. The machine
    /// takes no event.
    #[must_use]
    pub const fn no_list(&self) -> u64 {
        4 | (((self.rcx >> 48) & 0xFFF) << 32)
    }
}

/// The guest OS id, one per partition, 0 at first.
pub const GUEST_OS_ID: u32 = 0x4000_0000;
/// Where the hypercall page is, one per partition.
pub const HYPERCALL: u32 = 0x4000_0001;
/// Where the reference TSC page is, one per partition.
pub const REFERENCE_TSC: u32 = 0x4000_0021;
/// The VP assist page, one per processor.
pub const VP_ASSIST_PAGE: u32 = 0x4000_0073;

/// What the VMM does for an MSR access.
#[derive(Clone, Copy, Debug, PartialEq, Eq)]
pub enum Access {
    /// A read: the guest gets this value.
    Value(u64),
    /// A write: it is stored.
    Kept,
    /// A write: it is stored; put the hypercall page's code at bits 63:12 of the value before the guest goes
    /// on, even if it was enabled before.
    Code,
    /// Inject #GP(0). Nothing changed.
    Fault,
    /// The machine has this MSR.
    Machine,
    /// None of these, and the mask doesn't forbid it: serve it if you have it, or inject #GP(0).
    Other,
}

/// The bit of a privilege mask without which a guest gets #GP at an MSR; 0 if none is needed. It covers the
/// MSRs that the TLFS puts behind a privilege, most of which neither the machine nor this module has. It leaves
/// out [`REFERENCE_TSC`], which the TLFS puts behind bit 9: Linux reads and writes it at each kexec without
/// asking for that, and dumps its stack after a #GP.
#[must_use]
pub const fn privilege(msr: u32) -> u64 {
    match msr {
        0x4000_0010 => 1 << 0,                                           // VP run time
        0x4000_0020 => 1 << 1,                                           // reference time
        0x4000_0080..=0x4000_0084 | 0x4000_0090..=0x4000_009F => 1 << 2, // SynIC
        0x4000_00B0..=0x4000_00B7 => 1 << 3,                             // timers
        0x4000_0070..=0x4000_0072 => 1 << 4,                             // EOI, ICR and TPR
        GUEST_OS_ID | HYPERCALL => 1 << 5,
        0x4000_0002 => 1 << 6,                // VP index
        0x4000_0003 => 1 << 7,                // reset
        0x4000_00E0..=0x4000_00E3 => 1 << 8,  // pages of statistics
        0x4000_00F0 => 1 << 10,               // idle
        0x4000_0022 | 0x4000_0023 => 1 << 11, // frequencies of TSC and APIC
        _ => 0,
    }
}

/// Returns whether a partition's mask has what the MSR needs.
#[must_use]
pub const fn may(mask: u64, msr: u32) -> bool {
    mask & privilege(msr) == privilege(msr)
}

/// Whether the machine has an MSR, and answers its accesses.
const fn is_machines(msr: u32) -> bool {
    matches!(msr, 0x4000_0002 | 0x4000_0080..=0x4000_0084 | 0x4000_0090..=0x4000_009F)
}

/// The values of one partition's MSRs that are the hypervisor's own. Make a new one where the partition or
/// its guest is reset.
#[derive(Clone, Debug, PartialEq, Eq)]
pub struct Guest {
    os_id: u64,
    hypercall: u64,
    assist: [u64; 64],
    tsc_page: u64,
}

impl Default for Guest {
    fn default() -> Guest {
        Guest::new(0)
    }
}

impl Guest {
    /// The guest OS id is 0 and each VP assist page, too. `hypercall` is the first value of its MSR: 0, but
    /// of a root that can't move its page.
    #[must_use]
    pub const fn new(hypercall: u64) -> Guest {
        Guest { os_id: 0, hypercall, assist: [0; 64], tsc_page: 0 }
    }

    /// Returns the value of [`REFERENCE_TSC`]: bit 0 says whether the page is enabled, bits 63:12 are its
    /// number. See [`tsc_page`].
    #[must_use]
    pub const fn tsc_page(&self) -> u64 {
        self.tsc_page
    }

    /// Reads an MSR for the processor `vp`, 0 to 63. `mask` is the partition's privilege mask now. The
    /// machine itself checks the mask for its own MSRs.
    #[must_use]
    pub const fn read_msr(&self, vp: u32, mask: u64, msr: u32) -> Access {
        match msr {
            msr if is_machines(msr) => Access::Machine,
            msr if !may(mask, msr) => Access::Fault,
            GUEST_OS_ID => Access::Value(self.os_id),
            HYPERCALL => Access::Value(self.hypercall),
            REFERENCE_TSC => Access::Value(self.tsc_page),
            VP_ASSIST_PAGE => Access::Value(self.assist[vp as usize % 64]),
            _ => Access::Other,
        }
    }

    /// Writes an MSR for the processor `vp`, 0 to 63. `mask` is as for a read. `is_memory` says whether the
    /// 4,096 bytes at bits 63:12 of `value` are memory of the guest; only [`HYPERCALL`] asks.
    ///
    /// A guest OS id of 0 disables the hypercall page, locked or not.
    #[must_use]
    pub const fn write_msr(&mut self, vp: u32, mask: u64, msr: u32, value: u64, is_memory: bool) -> Access {
        match msr {
            msr if is_machines(msr) => return Access::Machine,
            msr if !may(mask, msr) => return Access::Fault,
            GUEST_OS_ID => {
                self.os_id = value;
                if value == 0 {
                    self.hypercall &= !1;
                }
            }
            HYPERCALL => return self.move_code(value, is_memory),
            REFERENCE_TSC => self.tsc_page = value,
            VP_ASSIST_PAGE => self.assist[vp as usize % 64] = value,
            _ => return Access::Other,
        }
        Access::Kept
    }

    /// Writes the MSR of the hypercall page. The page can't be enabled while the guest OS id is 0, nor
    /// outside the guest's memory. A locked page stays until a reset.
    const fn move_code(&mut self, value: u64, is_memory: bool) -> Access {
        let enables = value & 1 == 1 && self.os_id != 0;
        if (self.hypercall >> 1) & 1 == 1 {
            return Access::Kept;
        }
        if enables && !is_memory {
            return Access::Fault;
        }
        self.hypercall = if enables { value } else { value & !1 };
        if enables { Access::Code } else { Access::Kept }
    }
}

/// The bits of a mask for the MSRs that the machine and this module serve: SynIC, hypercall page, VP index.
pub const SERVED: u32 = 0x64;

/// EAX, EBX, ECX and EDX of a CPUID leaf from 0x40000000 to 0x40000005, for a partition with this privilege
/// mask. `None` for any other leaf: leaves above are zeros, and leaf 1 is the processor's with bit 31 of ECX
/// set. A VMM with features of its own adds their bits to EDX of 0x40000003.
///
/// `served` has the bits of the MSRs that the VMM itself serves, such as bit 1 for reference time and bit 9 for
/// its page. The low half of the mask in leaf 0x40000003 announces only these and [`SERVED`]: a guest would get
/// #GP at any others.
///
/// Leaf 0x40000004 tells the guest not to use AutoEOI (bit 9 of EAX), which the machine ignores, and never to
/// report long spinning (EBX). Build and version, in leaf 0x40000002, are arbitrary.
#[must_use]
pub const fn cpuid(leaf: u32, mask: u64, served: u32) -> Option<[u32; 4]> {
    Some(match leaf {
        0x4000_0000 => [0x4000_0005, 0x7263_694D, 0x666F_736F, 0x7648_2074], // "Microsoft Hv"
        0x4000_0001 => [0x3123_7648, 0, 0, 0],                               // "Hv#1"
        0x4000_0002 => [20348, 10 << 16, 0, 0],
        0x4000_0003 => [mask as u32 & (SERVED | served), (mask >> 32) as u32, 0, 0],
        0x4000_0004 => [1 << 9, u32::MAX, 0, 0],
        0x4000_0005 => [64, 64, 0, 0],
        _ => return None,
    })
}

/// The scale of reference time for a TSC of this frequency, which is above 10,000,000 Hz; otherwise 0.
///
/// A partition's reference time counts units of 100 ns (TLFS 4.0, "Timers"). It is TSC * scale / 2^64 + offset,
/// here and in the guest, which computes it from the page. A VMM that serves it has bit 1 (MSR 0x40000020) or
/// bit 9 (the page) in the mask and in `served`. The offset is minus the reference time that the TSC alone gives
/// where the partition's time begins, or where a restored one goes on.
#[must_use]
pub const fn tsc_scale(frequency: u64) -> u64 {
    const UNITS: u64 = 10_000_000;
    if frequency <= UNITS { 0 } else { (((UNITS as u128) << 64) / frequency as u128) as u64 }
}

/// Returns the reference time at this TSC: the value of MSR 0x40000020.
#[must_use]
pub const fn reference_time(tsc: u64, scale: u64, offset: i64) -> u64 {
    (((tsc as u128 * scale as u128) >> 64) as u64).wrapping_add(offset as u64)
}

/// Returns the first 24 bytes of the reference TSC page, the others being zero. After a guest enabled the page by
/// [`REFERENCE_TSC`], copy them there. `sequence` is neither 0 nor 0xFFFFFFFF, with which the guest reads the MSR
/// instead, and is another one after each change. While other processors may read the page, write its first 4
/// bytes as 0 first, then bytes 8 to 23, and the sequence last.
#[must_use]
pub fn tsc_page(sequence: u32, scale: u64, offset: i64) -> [u8; 24] {
    let mut page = [0; 24];
    page[..4].copy_from_slice(&sequence.to_le_bytes());
    page[8..16].copy_from_slice(&scale.to_le_bytes());
    page[16..].copy_from_slice(&offset.to_le_bytes());
    page
}

#[cfg(test)]
mod tests {
    use super::*;

    /// A processor in the kernel of a guest. Each register has another value, with bits in its upper half.
    fn kernel(is_64_bit: bool) -> Cpu {
        Cpu {
            rax: 0xA1A1_A1A1_000B_005C,
            rbx: 0xB2B2_B2B2_0000_0002,
            rcx: 0xC3C3_C3C3_0000_3008,
            rdx: 0xD4D4_D4D4_0001_0003,
            rsi: 0xE5E5_E5E5_0000_6010,
            rdi: 0xF6F6_F6F6_0000_0004,
            r8: 0x0707_0707_0000_8018,
            is_64_bit,
            is_protected: true,
            cpl: 0,
        }
    }

    #[test]
    fn a_call_is_read_by_either_convention() {
        let wide =
            Registers { rcx: 0xC3C3_C3C3_0000_3008, rdx: 0xD4D4_D4D4_0001_0003, r8: 0x0707_0707_0000_8018 };
        let narrow = Registers { rcx: 0x0001_0003_000B_005C, rdx: 0x2_0000_3008, r8: 0x4_0000_6010 };
        assert_eq!(kernel(true).call(), Some(wide));
        assert_eq!(kernel(false).call(), Some(narrow));
    }

    #[test]
    fn only_a_kernel_in_protected_mode_may_call() {
        for is_64_bit in [false, true] {
            for cpl in 1..4 {
                assert_eq!(Cpu { cpl, ..kernel(is_64_bit) }.call(), None);
            }
        }
        assert_eq!(Cpu { is_protected: false, ..kernel(false) }.call(), None);
    }

    #[test]
    fn a_result_goes_to_its_registers_alone() {
        for (is_64_bit, rax, rdx) in [(true, 0x3_0000_0013, 0xD4D4_D4D4_0001_0003), (false, 0x13, 3)] {
            let mut cpu = kernel(is_64_bit);
            cpu.finish(0x3_0000_0013);
            assert_eq!(cpu, Cpu { rax, rdx, ..kernel(is_64_bit) });
        }
    }

    #[test]
    fn a_call_goes_on_by_its_input_value_alone() {
        let call = Registers { rcx: 0x0002_0003_0000_0048, rdx: 5, r8: 6 };
        let mut cpu = kernel(true);
        cpu.again(&call);
        assert_eq!(cpu, Cpu { rcx: 0x0002_0003_0000_0048, ..kernel(true) });
        let mut cpu = kernel(false);
        cpu.again(&call);
        assert_eq!(cpu, Cpu { rax: 0x48, rdx: 0x0002_0003, ..kernel(false) });
        assert_eq!(cpu.call().map(|call| call.rcx), Some(0x0002_0003_0000_0048));
    }

    #[test]
    fn calls_have_the_lists_that_they_need() {
        // The codes, each with whether it has an input list and an output list.
        let inputs = [
            0x40, 0x41, 0x42, 0x43, 0x44, 0x45, 0x47, 0x48, 0x49, 0x4A, 0x4E, 0x4F, 0x50, 0x51, 0x58, 0x5B,
            0x5C, 0x5D, 0x95, 0x96,
        ];
        let outputs = [0x40, 0x44, 0x46, 0x47, 0x49, 0x4A, 0x50];
        for code in 0..=0xFFFF {
            let call = Registers { rcx: 0x0001_0002_0000_0000 | code, rdx: 0, r8: 0 };
            let fast = Registers { rcx: call.rcx | 0x1_0000, ..call };
            assert_eq!(call.has_input(), inputs.contains(&code), "{code:#x}");
            assert_eq!(call.has_output(), outputs.contains(&code), "{code:#x}");
            assert!(!fast.has_input() && !fast.has_output() && fast.is_fast() && !call.is_fast());
        }
        // Bits 63:60 are no part of the start index.
        let call = Registers { rcx: 0xFFFE_FFFF_0000_0048, rdx: 0, r8: 0 };
        assert_eq!(call.no_list(), 0x0FFE_0000_0004);
    }

    #[test]
    fn each_msr_has_the_bit_that_gates_it() {
        // The first MSR, how many there are, and their bit; all others have none.
        let rows = [
            (0x4000_0000, 2, 5),
            (0x4000_0002, 1, 6),
            (0x4000_0003, 1, 7),
            (0x4000_0010, 1, 0),
            (0x4000_0020, 1, 1),
            (0x4000_0022, 2, 11),
            (0x4000_0070, 3, 4),
            (0x4000_0080, 5, 2),
            (0x4000_0090, 16, 2),
            (0x4000_00B0, 8, 3),
            (0x4000_00E0, 4, 8),
            (0x4000_00F0, 1, 10),
        ];
        for msr in 0x3FFF_FFF0..0x4000_0200u32 {
            let row = rows.iter().find(|row| msr >= row.0 && msr < row.0 + row.1);
            let bit = row.map_or(0, |row| 1u64 << row.2);
            assert_eq!(privilege(msr), bit, "{msr:#x}");
            assert!(may(bit, msr) && may(!bit, msr) == (bit == 0));
        }
    }

    #[test]
    fn each_msr_has_its_owner() {
        for msr in 0x3FFF_FFF0..0x4000_0200u32 {
            let (read, write) = match msr {
                0x4000_0002 | 0x4000_0080..=0x4000_0084 | 0x4000_0090..=0x4000_009F => {
                    (Access::Machine, Access::Machine)
                }
                0x4000_0000 | 0x4000_0001 | 0x4000_0021 | 0x4000_0073 => (Access::Value(0), Access::Kept),
                _ => (Access::Other, Access::Other),
            };
            let mut guest = Guest::default();
            assert_eq!(guest.read_msr(0, u64::MAX, msr), read, "{msr:#x}");
            assert_eq!(guest.write_msr(0, u64::MAX, msr, 0, false), write, "{msr:#x}");
        }
        let mut guest = Guest::default();
        assert_eq!(guest.read_msr(0, 0, 0x4000_0002), Access::Machine);
        assert_eq!(guest.write_msr(0, 0, 0x4000_0084, 0, true), Access::Machine);
        assert_eq!(guest.read_msr(0, 1 << 1, 0x4000_0020), Access::Other);
        assert_eq!(guest.read_msr(0, !(1 << 1), 0x4000_0020), Access::Fault);
        assert_eq!(guest.write_msr(0, !(1 << 1), 0x4000_0020, 0, true), Access::Fault);
    }

    const OS: u64 = 0x8100_0000_0006_0C00;
    const PAGE: u64 = 0x1234_5000;

    #[test]
    fn a_guest_says_who_it_is_and_enables_its_page() {
        let (all, without) = (u64::MAX, !(1 << 5));
        let mut guest = Guest::default();
        assert_eq!(guest.write_msr(0, without, GUEST_OS_ID, OS, true), Access::Fault);
        assert_eq!(guest.write_msr(0, without, HYPERCALL, PAGE | 1, true), Access::Fault);
        assert_eq!(guest, Guest::default());
        assert_eq!(guest.read_msr(0, without, GUEST_OS_ID), Access::Fault);
        assert_eq!(guest.read_msr(0, without, HYPERCALL), Access::Fault);
        assert_eq!(guest.write_msr(0, all, HYPERCALL, PAGE | 1, true), Access::Kept);
        assert_eq!(guest.read_msr(0, all, HYPERCALL), Access::Value(PAGE));
        assert_eq!(guest.write_msr(3, all, GUEST_OS_ID, OS, false), Access::Kept);
        assert_eq!(guest.read_msr(9, all, GUEST_OS_ID), Access::Value(OS));
        assert_eq!(guest.read_msr(9, all, HYPERCALL), Access::Value(PAGE));
        for _ in 0..2 {
            assert_eq!(guest.write_msr(3, all, HYPERCALL, PAGE | 1, true), Access::Code);
            assert_eq!(guest.read_msr(9, all, HYPERCALL), Access::Value(PAGE | 1));
        }
        assert_eq!(guest.write_msr(3, all, HYPERCALL, PAGE | 0xFFD, true), Access::Code);
        assert_eq!(guest.read_msr(9, all, HYPERCALL), Access::Value(PAGE | 0xFFD));
        assert_eq!(guest.write_msr(3, all, HYPERCALL, PAGE | 1, true), Access::Code);
        assert_eq!(guest.write_msr(3, all, HYPERCALL, 0xFFFF_FFFF_F001, false), Access::Fault);
        assert_eq!(guest.write_msr(3, all, GUEST_OS_ID, 5, false), Access::Kept);
        assert_eq!(guest.read_msr(9, all, HYPERCALL), Access::Value(PAGE | 1));
        assert_eq!(guest.write_msr(3, all, GUEST_OS_ID, 0, false), Access::Kept);
        assert_eq!(guest.read_msr(9, all, GUEST_OS_ID), Access::Value(0));
        assert_eq!(guest.read_msr(9, all, HYPERCALL), Access::Value(PAGE));
        assert_eq!(guest.write_msr(3, all, HYPERCALL, 0xFFFF_FFFF_F000, false), Access::Kept);
        assert_eq!(guest.read_msr(9, all, HYPERCALL), Access::Value(0xFFFF_FFFF_F000));
    }

    #[test]
    fn a_locked_page_stays_until_a_reset() {
        let mut guest = Guest::default();
        assert_eq!(guest.write_msr(0, u64::MAX, GUEST_OS_ID, OS, false), Access::Kept);
        assert_eq!(guest.write_msr(0, u64::MAX, HYPERCALL, 0x5003, true), Access::Code);
        assert_eq!(guest.write_msr(0, u64::MAX, HYPERCALL, 0x6001, true), Access::Kept);
        assert_eq!(guest.write_msr(0, u64::MAX, HYPERCALL, 0xFFFF_FFFF_F001, false), Access::Kept);
        assert_eq!(guest.read_msr(0, u64::MAX, HYPERCALL), Access::Value(0x5003));
        for os_id in [0, OS] {
            assert_eq!(guest.write_msr(0, u64::MAX, GUEST_OS_ID, os_id, false), Access::Kept);
            assert_eq!(guest.write_msr(0, u64::MAX, HYPERCALL, 0x5003, true), Access::Kept);
            assert_eq!(guest.read_msr(0, u64::MAX, HYPERCALL), Access::Value(0x5002));
        }
        assert_eq!(Guest::new(0xFC0_0001).read_msr(0, u64::MAX, HYPERCALL), Access::Value(0xFC0_0001));
    }

    #[test]
    fn each_processor_has_its_assist_page_with_any_mask() {
        let mut guest = Guest::default();
        assert_eq!(guest.write_msr(0, 0, VP_ASSIST_PAGE, 0x7001, false), Access::Kept);
        assert_eq!(guest.write_msr(63, 0, VP_ASSIST_PAGE, 0x8001, false), Access::Kept);
        for (vp, value) in [(0, 0x7001), (1, 0), (31, 0), (63, 0x8001)] {
            assert_eq!(guest.read_msr(vp, 0, VP_ASSIST_PAGE), Access::Value(value));
        }
    }

    #[test]
    fn leaves_name_the_hypervisor() {
        let rows = [
            [0x4000_0005, 0x7263_694D, 0x666F_736F, 0x7648_2074],
            [0x3123_7648, 0, 0, 0],
            [20348, 0x000A_0000, 0, 0],
            [0x64, 0x30, 0, 0],
            [0x200, 0xFFFF_FFFF, 0, 0],
            [64, 64, 0, 0],
        ];
        for (leaf, row) in (0x4000_0000..).zip(rows) {
            assert_eq!(cpuid(leaf, 0x30_0000_0064, 0), Some(row));
        }
        for leaf in [0, 1, 0x3FFF_FFFF, 0x4000_0006, 0xC000_0000] {
            assert_eq!(cpuid(leaf, u64::MAX, u32::MAX), None);
        }
        let announced = |mask, served| cpuid(0x4000_0003, mask, served).map(|leaf| [leaf[0], leaf[1]]);
        assert_eq!(announced(u64::MAX, 0), Some([0x64, u32::MAX]));
        assert_eq!(announced(u64::MAX, 0x202), Some([0x266, u32::MAX]));
        assert_eq!(announced(0x40, 0x202), Some([0x40, 0]));
    }

    #[test]
    fn a_tsc_page_is_kept_with_any_mask() {
        let mut guest = Guest::default();
        assert_eq!(guest.write_msr(3, 0, REFERENCE_TSC, 0x9001, false), Access::Kept);
        assert_eq!((guest.read_msr(0, 0, REFERENCE_TSC), guest.tsc_page()), (Access::Value(0x9001), 0x9001));
    }

    #[test]
    fn reference_time_counts_units_of_100_ns() {
        // 2 GHz: 200 ticks a unit. 0x147AE147AE147AE is 2^64 / 200.
        assert_eq!((tsc_scale(2_000_000_000), tsc_scale(10_000_000)), (0x0147_AE14_7AE1_47AE, 0));
        assert_eq!(tsc_scale(20_000_000), 1 << 63);
        let scale = tsc_scale(2_000_000_000);
        // A second, less what the scale is rounded by.
        assert_eq!(reference_time(2_000_000_000, scale, 0), 9_999_999);
        assert_eq!(reference_time(3_000_000_000, scale, -9_999_999), 5_000_000);
        assert_eq!(reference_time(u64::MAX, u64::MAX, 2), 0);
        let mut page = [0; 24];
        (page[0], page[15], page[16]) = (7, 0x80, 0xFE);
        page[17..].fill(0xFF);
        assert_eq!(tsc_page(7, 1 << 63, -2), page);
    }
}
