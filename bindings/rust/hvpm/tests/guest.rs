//! The module `guest` beside the functions of hvpm_guest.h, which the library has: equal inputs have equal
//! answers.

use hvpm::Registers;
use hvpm::guest::{Access, Cpu, Guest, cpuid, may, privilege, reference_time, tsc_page, tsc_scale};
use hvpm_sys as sys;

const MSRS: core::ops::Range<u32> = 0x3FFF_FFF0..0x4000_0200;

fn raw_cpu(cpu: &Cpu) -> sys::hvpm_guest_cpu {
    let Cpu { rax, rbx, rcx, rdx, rsi, rdi, r8, is_64_bit, is_protected, cpl } = *cpu;
    sys::hvpm_guest_cpu { rax, rbx, rcx, rdx, rsi, rdi, r8, is_64_bit, is_protected, cpl }
}

fn is_same(cpu: &Cpu, raw: &sys::hvpm_guest_cpu) -> bool {
    format!("{:?}", raw_cpu(cpu)) == format!("{raw:?}")
}

fn raw_call(call: &Registers) -> sys::hvpm_registers {
    sys::hvpm_registers { rcx: call.rcx, rdx: call.rdx, r8: call.r8 }
}

/// Numbers that look random, for a seed that isn't 0.
fn numbers(mut seed: u64) -> impl FnMut() -> u64 {
    move || {
        seed ^= seed << 13;
        seed ^= seed >> 7;
        seed ^= seed << 17;
        seed
    }
}

#[test]
fn calls_are_read_and_ended_as_in_c() {
    let mut next = numbers(1);
    for case in 0..1000 {
        let [rax, rbx, rcx, rdx, rsi, rdi, r8] = [(); 7].map(|()| next());
        let (is_64_bit, is_protected, cpl) = (case & 1 == 1, case & 2 == 2, ((case >> 2) & 3) as u8);
        let cpu = Cpu { rax, rbx, rcx, rdx, rsi, rdi, r8, is_64_bit, is_protected, cpl };
        let raw = raw_cpu(&cpu);
        let mut call = sys::hvpm_registers { rcx: 0, rdx: 0, r8: 0 };
        // SAFETY: each pointer leads to a value of its type.
        let may_call = unsafe { sys::hvpm_guest_call(&raw, &mut call) };
        let read = may_call.then_some(Registers { rcx: call.rcx, rdx: call.rdx, r8: call.r8 });
        assert_eq!(cpu.call(), read, "{cpu:?}");

        let (mut ended, mut raw_ended) = (cpu, raw);
        ended.finish(rsi);
        // SAFETY: as above.
        unsafe { sys::hvpm_guest_return(&mut raw_ended, rsi) };
        assert!(is_same(&ended, &raw_ended), "{ended:?}");

        let (mut again, mut raw_again) = (cpu, raw);
        let call = Registers { rcx: rdi, rdx: 0, r8: 0 };
        again.again(&call);
        // SAFETY: as above.
        unsafe { sys::hvpm_guest_again(&mut raw_again, &raw_call(&call)) };
        assert!(is_same(&again, &raw_again), "{again:?}");
    }
}

#[test]
fn calls_have_the_lists_of_c() {
    let mut next = numbers(2);
    for code in 0..=0xFFFF {
        for fast in [0, 1 << 16] {
            let call = Registers { rcx: next() & !0x1_FFFF | fast | code, rdx: next(), r8: next() };
            let raw = raw_call(&call);
            // SAFETY: the pointer leads to a value of its type.
            let (input, output, result) = unsafe {
                let input = sys::hvpm_guest_has_input(&raw);
                (input, sys::hvpm_guest_has_output(&raw), sys::hvpm_guest_no_list(&raw))
            };
            assert_eq!(
                (call.has_input(), call.has_output(), call.no_list()),
                (input, output, result),
                "{call:?}"
            );
        }
    }
}

#[test]
fn msrs_need_the_privileges_of_c() {
    for msr in MSRS {
        // SAFETY: the functions take only numbers.
        assert_eq!(privilege(msr), unsafe { sys::hvpm_guest_privilege(msr) }, "{msr:#x}");
        for mask in [0, u64::MAX, privilege(msr), !privilege(msr)] {
            assert_eq!(may(mask, msr), unsafe { sys::hvpm_guest_may(mask, msr) }, "{msr:#x} {mask:#x}");
        }
    }
}

/// What C answers to a read or a write.
fn access(answer: u32, value: Option<u64>) -> Access {
    match answer {
        sys::HVPM_GUEST_DONE => value.map_or(Access::Kept, Access::Value),
        sys::HVPM_GUEST_FAULT => Access::Fault,
        sys::HVPM_GUEST_CODE => Access::Code,
        sys::HVPM_GUEST_MACHINE => Access::Machine,
        sys::HVPM_GUEST_OTHER => Access::Other,
        _ => panic!("answer {answer}"),
    }
}

/// Random writes of one guest after another, and what a read of each MSR answers after them.
#[test]
fn msrs_are_read_and_written_as_in_c() {
    let mut next = numbers(3);
    for _ in 0..200 {
        let mut guest = Guest::default();
        let mut raw = sys::hvpm_guest { os_id: 0, hypercall: 0, assist: [0; 64], tsc_page: 0 };
        for _ in 0..20 {
            let (vp, mask) = (next() as u32 % 64, if next() & 7 == 0 { next() } else { u64::MAX });
            let msr =
                [0x4000_0000, 0x4000_0001, 0x4000_0073, 0x4000_0021, MSRS.start + next() as u32 % 0x210]
                    [next() as usize % 5];
            let (value, is_memory) = ((next() & 3) % 3 * (next() & 0xFFFF_F003), next() & 3 != 0);
            // SAFETY: the pointer leads to a value of its type.
            let answer = unsafe { sys::hvpm_guest_write_msr(&mut raw, vp, mask, msr, value, is_memory) };
            let written = guest.write_msr(vp, mask, msr, value, is_memory);
            assert_eq!(written, access(answer, None), "{msr:#x} {value:#x} {mask:#x} {is_memory}");
            for msr in MSRS {
                let mut value = 0;
                // SAFETY: as above, for both pointers.
                let answer = unsafe { sys::hvpm_guest_read_msr(&raw, vp, mask, msr, &mut value) };
                assert_eq!(guest.read_msr(vp, mask, msr), access(answer, Some(value)), "{msr:#x} {mask:#x}");
            }
        }
    }
}

#[test]
fn cpuid_has_the_leaves_of_c() {
    let mut next = numbers(4);
    for leaf in (0x3FFF_FFF0..0x4000_0010).chain([0, 1, u32::MAX]) {
        for mask in [0, 0xf7_0000_0044, u64::MAX] {
            let mut registers = [0; 4];
            // SAFETY: the pointer leads to four numbers.
            let served = next() as u32;
            let is_leaf = unsafe { sys::hvpm_guest_cpuid(leaf, mask, served, registers.as_mut_ptr()) };
            assert_eq!(cpuid(leaf, mask, served), is_leaf.then_some(registers), "{leaf:#x}");
        }
    }
}

#[test]
fn reference_time_is_that_of_c() {
    let mut next = numbers(5);
    let edges = [0, 1, 9_999_999, 10_000_000, 10_000_001, u64::MAX];
    for case in 0..10_000 {
        let random = next() >> (next() % 40);
        let (frequency, tsc, offset) = (*edges.get(case).unwrap_or(&random), next(), next() as i64);
        let (scale, sequence) = (tsc_scale(frequency), next() as u32);
        let mut page = [0; 24];
        // SAFETY: the pointer leads to as many bytes as the function writes.
        let (raw_scale, time) = unsafe {
            sys::hvpm_guest_tsc_page(sequence, scale, offset, page.as_mut_ptr());
            (sys::hvpm_guest_tsc_scale(frequency), sys::hvpm_guest_reference_time(tsc, scale, offset))
        };
        assert_eq!((raw_scale, time), (scale, reference_time(tsc, scale, offset)), "{frequency} {tsc}");
        assert_eq!(page, tsc_page(sequence, scale, offset));
    }
}
