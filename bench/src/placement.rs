//! Where the engine's code stands in this program: as many bytes further on as BENCH_PADDING
//! says when the benchmark is built. The linker puts this padding, with the benchmark's own
//! code, before the engine's. `placements.sh` measures at several places.

use std::arch::global_asm;

const PADDING: usize = match option_env!("BENCH_PADDING") {
    None => 0,
    Some(text) => match usize::from_str_radix(text, 10) {
        Ok(bytes) => bytes,
        Err(_) => panic!("BENCH_PADDING is not a count of bytes"),
    },
};

global_asm!(
    ".pushsection .text.padding, \"axR\", @progbits",
    ".skip {padding}",
    ".popsection",
    padding = const PADDING,
);
