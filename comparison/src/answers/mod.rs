//! The port's two functions that read answer lines back. MartyPC has none, so they are held to a reference.

pub mod call;
pub mod careful;
pub mod faulty;
pub mod held;
pub mod lines;
pub mod loan;
pub mod over_texts;
pub mod reference;
pub mod sections;
pub mod tabled;
pub mod texts;
pub mod walk;
