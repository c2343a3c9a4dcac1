//! The grid of sixty-fourths: which floats stand on it, and their exact scaled numbers.

/// The greatest scaled number on the grid; the least is its negative.
pub const FARTHEST: i64 = 65_536;
/// The bits of negative zero, which stands on the grid but is never written by a nudge.
pub const MINUS_ZERO: u32 = 0x8000_0000;

/// 64 times the float with these bits, if that is a whole number within the grid.
/// 64 times any f32 is exact in f64, so nothing is rounded. Negative zero gives zero.
pub fn scaled(bits: u32) -> Option<i64> {
    let sixty_fourths = f64::from(f32::from_bits(bits)) * 64.0;
    let whole = sixty_fourths.is_finite() && sixty_fourths.fract() == 0.0;
    let near = sixty_fourths.abs() <= FARTHEST as f64;
    (whole && near).then_some(sixty_fourths as i64)
}

/// The bits of the float that is `scaled` sixty-fourths. On the grid 17 bits hold it, so it is exact;
/// zero comes out positive because a whole number has no sign of zero.
pub fn bits_of(scaled: i64) -> u32 {
    ((scaled as f64 / 64.0) as f32).to_bits()
}
