//! Glue: the state.
use crate::math::Float;

#[derive(Clone)]
pub struct State {
    pub reals: Vec<Float>,
    pub imags: Vec<Float>,
    pub n: u8,
}

impl State {
    pub fn len(&self) -> usize {
        self.reals.len()
    }
}
