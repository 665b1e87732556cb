//! Stands in for datum_math: a pair of numbers, and a dimension that is always a plain value.

#[derive(Clone, Copy, Debug, Default, PartialEq)]
pub struct Vec2 {
    pub x: f64,
    pub y: f64,
}

impl Vec2 {
    pub const fn new(x: f64, y: f64) -> Self {
        Self { x, y }
    }
}

pub mod expr {
    use std::fmt;

    #[derive(Clone, Debug, PartialEq)]
    pub enum Num {
        Value(f64),
    }

    impl Num {
        pub fn value(&self) -> Option<f64> {
            let Num::Value(v) = self;
            Some(*v)
        }

        pub fn resolve(&self, _: &impl Fn(&str) -> Result<f64, ExprError>) -> Result<f64, ExprError> {
            let Num::Value(v) = self;
            Ok(*v)
        }
    }

    impl fmt::Display for Num {
        fn fmt(&self, f: &mut fmt::Formatter<'_>) -> fmt::Result {
            let Num::Value(v) = self;
            v.fmt(f)
        }
    }

    /// A plain value never fails, so no error of this kind is ever made.
    #[derive(Clone, Debug, PartialEq)]
    pub enum ExprError {}

    impl fmt::Display for ExprError {
        fn fmt(&self, _: &mut fmt::Formatter<'_>) -> fmt::Result {
            match *self {}
        }
    }
}
