//! Stand-in for the crate `wide`: of its `f64x4` only what `base_builder.rs` uses.
//!
//! A sum or a difference of two vectors is that of each lane, rounded once as IEEE 754 says. The
//! lanes lie in two SSE2 registers, as they would in a build for any x86-64 processor.

use std::arch::x86_64::{__m128d, _mm_add_pd, _mm_setr_pd, _mm_sub_pd};
use std::ops::{Add, Sub};

#[allow(non_camel_case_types)]
#[derive(Clone, Copy)]
#[repr(C, align(32))]
pub struct f64x4 {
    low: __m128d,
    high: __m128d,
}

impl f64x4 {
    /// The same number in each lane.
    #[inline]
    #[must_use]
    pub fn splat(lane: f64) -> Self {
        Self::from([lane; 4])
    }

    /// The lanes, lane 0 first.
    #[inline]
    #[must_use]
    pub fn as_array(&self) -> &[f64; 4] {
        // SAFETY: `repr(C)` lays the registers side by side, low first, and each holds two f64.
        unsafe { &*std::ptr::from_ref(self).cast() }
    }
}

impl From<[f64; 4]> for f64x4 {
    #[inline]
    fn from([a, b, c, d]: [f64; 4]) -> Self {
        // SAFETY: every x86-64 processor has SSE2.
        unsafe { Self { low: _mm_setr_pd(a, b), high: _mm_setr_pd(c, d) } }
    }
}

impl Add for f64x4 {
    type Output = Self;

    #[inline]
    fn add(self, other: Self) -> Self {
        // SAFETY: every x86-64 processor has SSE2.
        unsafe {
            Self { low: _mm_add_pd(self.low, other.low), high: _mm_add_pd(self.high, other.high) }
        }
    }
}

impl Sub for f64x4 {
    type Output = Self;

    #[inline]
    fn sub(self, other: Self) -> Self {
        // SAFETY: every x86-64 processor has SSE2.
        unsafe {
            Self { low: _mm_sub_pd(self.low, other.low), high: _mm_sub_pd(self.high, other.high) }
        }
    }
}
