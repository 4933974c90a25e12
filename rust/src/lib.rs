//! The arithmetic of Intel's 8088, proved.
//!
//! An 8088 adds, subtracts, shifts, rotates, multiplies, divides and adjusts decimal digits. This
//! crate gives its results, its flags and the steps of its microcode. The work is done by a
//! static library whose every function is proved; what stands here only carries numbers to it and
//! back.
//!
//! An [`Operation`] holds its operands at the width that it works on, and [`Flags`] hold nothing
//! but flags, so a request that the chip could not be given does not compile:
//!
//! ```
//! use hatchyarn::{Flags, Operation};
//!
//! let divide = Operation::Divide8 { dividend: 0x0007, divisor: 0x02, signed: false, rep: false };
//! let answer = divide.ask(Flags::NONE)?;
//! assert_eq!((answer.r, answer.s), (3, 1));
//! assert_eq!(answer.steps, 81);
//! # Ok::<(), hatchyarn::Refusal>(())
//! ```
//!
//! A divide that the chip traps is a [`Refusal`] and says why, with the flags that the handler of the
//! trap finds. This one would have the quotient -128:
//!
//! ```
//! use hatchyarn::{DivideRefusal, Flags, Operation, Refusal};
//!
//! let divide = Operation::Divide8 { dividend: 0xFF80, divisor: 0x01, signed: true, rep: false };
//! let refusal = divide.ask(Flags::NONE).unwrap_err();
//! let (why, flags) = (DivideRefusal::SignRange, Flags::AUX_CARRY | Flags::PARITY);
//! assert_eq!(refusal, Refusal::Divide { why, flags, steps: 95 });
//! assert_eq!(refusal.to_string(), "the divide is refused: the quotient does not fit with its sign");
//! ```
//!
//! A list page only has to know which of its keys are closed. [`Operation::would_trap`] tells it of one
//! divide, and [`Operation::would_trap_each8`] and [`Operation::would_trap_each16`] of a slice of keys, with no
//! quotient worked out:
//!
//! ```
//! use hatchyarn::Operation;
//!
//! let keys = [0xFF81, 0xFF80, 0x0007];
//! assert!(Operation::would_trap_each8(&keys, 0x01, true).eq([false, true, false]));
//! ```
//!
//! A tester who asks why two divides with one quotient take different steps has the answer from [`Roads`]: how many
//! ones of the quotient came by a bit shifted out, and how many by no borrow. Each of the latter takes one step more.
//! 00FF / FF takes 80 steps, and 0100 / C8 takes 79:
//!
//! ```
//! use hatchyarn::Roads;
//!
//! let told = |dividend, divisor| Roads::of_divide8(dividend, divisor, false).map(|roads| roads.to_string());
//! assert_eq!(told(0x00FF, 0xFF)?, "0 ones by a bit shifted out, 1 by no borrow");
//! assert_eq!(told(0x0100, 0xC8)?, "1 one by a bit shifted out, 0 by no borrow");
//! # Ok::<(), hatchyarn::DivideRefusal>(())
//! ```
//!
//! A session works over [`registers::Registers`], which remember their steps: AX, DX, the flags, and a total that its
//! log shows. A refused divide leaves AX and DX as they were, stores the flags, and its steps go into the total:
//!
//! ```
//! use hatchyarn::registers::Registers;
//! use hatchyarn::Flags;
//!
//! let mut session = Registers::new(0xFF81, 0, Flags::NONE);
//! assert_eq!(session.div8(0x01, true, false)?, 111);
//! assert!(session.div8(0x00, true, false).is_err());
//! assert_eq!((session.ax, session.total()), (0x0081, 130));
//! # Ok::<(), hatchyarn::registers::Refusal>(())
//! ```
//!
//! Requests that come as text are answered line by line ([`answer_line`]) or as a whole
//! ([`answer_all`]). Requests that come as numbers that nobody has checked go to [`raw::ask`], or
//! to [`raw::would_trap`] where nothing else has to be known of a divide, or to [`raw::roads`] where
//! its steps are to be explained, or to [`raw::registers`](raw::registers()).
//!
//! Numbers of packed decimal digits, as loan cards hold them, are added and subtracted by
//! [`packed::add`] and [`packed::subtract`].
//!
//! Answers that were written as text are read back by [`record::records`], a [`record::Record`] a line, to
//! be compared with others or told in words. A line that cannot be read is told with its place and the
//! reason.

mod answer;
mod flags;
mod lines;
mod operation;
pub mod packed;
pub mod raw;
pub mod record;
pub mod registers;
mod roads;
mod trap;

pub use answer::{Answer, DivideRefusal, Refusal};
pub use flags::Flags;
pub use lines::{answer_all, answer_line, ANSWER_BYTES};
pub use operation::{Adjust, Operation, Shift, Sum};
pub use roads::Roads;
