/// Accessors of the comparison: what this file keeps private, handed out as it is.
pub mod accessors {
    /// [`super::log1pexp`].
    #[must_use]
    pub fn log1pexp(x: f64) -> f64 {
        super::log1pexp(x)
    }

    /// [`super::ln_one_minus_exp`].
    #[must_use]
    pub fn ln_one_minus_exp(x: f64) -> f64 {
        super::ln_one_minus_exp(x)
    }

    /// [`super::ln_a_minus_b`], which panics where `b` is above `a` by more than rounding.
    #[must_use]
    pub fn ln_a_minus_b(a: f64, b: f64) -> f64 {
        super::ln_a_minus_b(a, b)
    }
}
