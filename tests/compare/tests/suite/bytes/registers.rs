//! Register bytes: every length that is not 8r, and every byte at its own place.

use crate::helpers::*;
use compare::byte_calls::ByteCall;
use second::build::*;
use second::encode::register_bytes;
use second::generate::random::Random;
use second::generate::Case;

/// Every length up to 18 registers and some beyond, for every r.
#[test]
fn of_every_length() {
    let random = &mut Random::new(1);
    for count in 0..=16 {
        let call = ByteCall::of(&with_starts(image(count, num(1)), &[]));
        for length in (0..=8 * 18).chain([256, 8 * 257, 1 << 16]) {
            let registers = vec![0xf0; length];
            let expected = if length == 8 * count as usize { 0 } else { 20 };
            let call = ByteCall { registers, ..call.clone() };
            let ran = agreed_run_bytes(&call, random);
            assert_eq!(ran.refused(), expected, "r {count}, {length} bytes");
            assert_eq!(ran.registers, call.registers);
        }
    }
}

/// A byte of a register is 256 times the one before it; the last has the sign.
#[test]
fn each_byte_is_read_at_its_place() {
    let random = &mut Random::new(2);
    let call = ByteCall::of(&with_starts(image(2, assign(1, id(0))), &[0, 0]));
    for index in 0..8 {
        for byte in [1, 0x7f, 0x80, 0xff] {
            let mut registers = vec![0; 16];
            registers[index] = byte;
            let ran = agreed_run_bytes(&ByteCall { registers, ..call.clone() }, random);
            let number = (u64::from(byte) << (8 * index)) as i64;
            assert_eq!(ran.registers, register_bytes(&[number, number]));
        }
    }
}

/// Each of 16 registers is read and set at its own 8 bytes.
#[test]
fn each_register_is_its_own() {
    let random = &mut Random::new(3);
    let starts: Vec<i64> = (0..16).map(|index| (index - 8) * 0x0102_0304_0506_0708).collect();
    for register in 0..16 {
        let other = (register + 5) % 16;
        let mut expected = starts.clone();
        expected[register as usize] = starts[other as usize];
        let call = ByteCall::of(&with_starts(image(16, assign(register, id(other))), &starts));
        assert_eq!(agreed_run_bytes(&call, random).registers, register_bytes(&expected));
    }
}

/// At every budget, and where a step is withheld for another reason.
#[test]
fn a_withheld_step_leaves_them() {
    let random = &mut Random::new(4);
    for (start, steps, left) in [(3, 71, [6, 0]), (21, 391, [8_515_157_028_618_240_000, 3])] {
        let mut call = ByteCall::of(&with_starts(image(2, factorial()), &[1, start]));
        let ran = agreed_run_bytes(&call, random);
        assert_eq!((ran.reply.steps, ran.registers), (steps, register_bytes(&left)));
        for budget in 0..steps {
            call.budget = budget;
            let ran = agreed_run_bytes(&call, random);
            assert_eq!((ran.refused(), ran.reply.steps), (30, budget));
        }
    }
}

/// Where a function's Blk has room on neither stack, or on control alone: the register was
/// set before its call. A budget of all steps that are made is told first.
#[test]
fn a_step_that_both_stacks_withhold_leaves_them() {
    let random = &mut Random::new(6);
    for (control, number) in [(508, 35), (509, 36), (510, 36), (511, 36)] {
        let image = call_with_full_values(control);
        let steps = steps_before_the_blk(control);
        for (budget, number) in [(steps, 30), (steps + 1, number), (steps + 2, number)] {
            let call = ByteCall::of(&Case { budget, ..with_starts(image.clone(), &[-5]) });
            let ran = agreed_run_bytes(&call, random);
            assert_eq!((ran.refused(), ran.reply.steps), (number, steps), "{control}");
            assert_eq!(ran.registers, register_bytes(&[77]), "{control}");
        }
    }
}

/// Any bytes are registers: what is read and not set stays as it was.
#[test]
fn any_bytes_are_registers() {
    let random = &mut Random::new(5);
    for count in 1..=16 {
        let call = ByteCall::of(&with_starts(image(count, id(count - 1)), &[]));
        for _ in 0..50 {
            let registers: Vec<u8> = (0..8 * count).map(|_| random.word() as u8).collect();
            let call = ByteCall { registers: registers.clone(), ..call.clone() };
            assert_eq!(agreed_run_bytes(&call, random).registers, registers);
        }
    }
}
