//! The port's two functions over text, held to a model of them.

pub mod held;
pub mod model;
pub mod sections;
pub(crate) mod texts;
