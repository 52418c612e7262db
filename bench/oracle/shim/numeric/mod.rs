//! Stands for the numbers; post_op.rs beside it is genuine.
mod post_op;
pub use post_op::PostOp;

#[derive(Copy, Clone, Debug, Default, PartialEq, Eq, Hash)]
pub enum Platform {
    #[default]
    Only,
}

/// The genuine `fpu` is in none of the files that are carried over. As 01 has it: one binary32 product, then one binary32 sum, each rounded to
/// nearest, ties to even, subnormals kept; a NaN result is 7FC00000.
pub mod fpu {
    use super::Platform;

    fn canon(x: f32) -> f32 {
        if x.is_nan() { f32::from_bits(0x7FC0_0000) } else { x }
    }

    #[inline(never)]
    pub fn mul(_: Platform, a: f32, b: f32) -> f32 {
        canon(a * b)
    }

    #[inline(never)]
    pub fn add(_: Platform, a: f32, b: f32) -> f32 {
        canon(a + b)
    }

    #[inline(never)]
    pub fn sub(_: Platform, a: f32, b: f32) -> f32 {
        canon(a - b)
    }

    #[inline(never)]
    pub fn mul_add(p: Platform, a: f32, b: f32, c: f32) -> f32 {
        add(p, mul(p, a, b), c)
    }
}

pub fn lt(a: f32, b: f32) -> bool {
    a < b
}
pub fn le(a: f32, b: f32) -> bool {
    a <= b
}
pub fn ge(a: f32, b: f32) -> bool {
    a >= b
}
pub fn gt(a: f32, b: f32) -> bool {
    a > b
}
