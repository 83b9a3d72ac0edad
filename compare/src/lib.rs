//! What the comparing program and the timing programs share.

pub mod full_squares;
pub mod generate;
pub mod random;
pub mod timing;
