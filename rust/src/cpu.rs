//! Which level of x86-64 the processor has.

use core::arch::x86_64::{__cpuid, _xgetbv};

/// Returns whether the processor has x86-64-v3, and the system keeps its registers.
// From some release of Rust on `__cpuid` is safe.
#[allow(unused_unsafe)]
pub(crate) fn has_v3() -> bool {
    const FMA_MOVBE_OSXSAVE_AVX_F16C: u32 = 1 << 12 | 1 << 22 | 1 << 27 | 1 << 28 | 1 << 29;
    const BMI1_AVX2_BMI2: u32 = 1 << 3 | 1 << 5 | 1 << 8;
    const LZCNT: u32 = 1 << 5;
    const SSE_AND_AVX_STATE: u64 = 0b110;

    const EXTENDED: u32 = 0x8000_0000;
    // SAFETY: every x86-64 processor has the instruction, and the leaves up to those that it tells.
    let cpuid = |leaf| unsafe { __cpuid(leaf) };
    cpuid(0).eax >= 7
        && cpuid(EXTENDED).eax > EXTENDED
        && cpuid(1).ecx & FMA_MOVBE_OSXSAVE_AVX_F16C == FMA_MOVBE_OSXSAVE_AVX_F16C
        && cpuid(7).ebx & BMI1_AVX2_BMI2 == BMI1_AVX2_BMI2
        && cpuid(EXTENDED + 1).ecx & LZCNT == LZCNT
        // SAFETY: the bit OSXSAVE, looked at before, says that the instruction may be used.
        && unsafe { _xgetbv(0) } & SSE_AND_AVX_STATE == SSE_AND_AVX_STATE
}

#[cfg(test)]
mod tests {
    use super::*;
    extern crate std;

    #[test]
    fn agrees_with_std() {
        use std::is_x86_feature_detected as has;
        let wanted = has!("avx2") && has!("bmi1") && has!("bmi2") && has!("f16c") && has!("fma") && has!("lzcnt");
        assert_eq!(has_v3(), wanted);
    }
}
