//! Safe functions over the proved solver's C entries (`include/kickballbox.h`): files of quantified constraint problems read, looked
//! up, written, played, judged, marked, written as quantified boolean formulas, and split into the groups of variables that hang together.
//!
//! A file may have three-way constraints: triples of values that three variables may take together. Verdict and marks are those of the game in
//! which they are tested as well. What a search finds, the rules alone, formulas and groups are of the *ordinary problem*: the file's n variables,
//! behind them an existential one for each of the t three-way constraints, whose values are the places of its triples, and constraints of two
//! variables alone. Without three-way constraints that is the file's own problem. Plays, positions, marks and open values speak of the file's own
//! n variables, and open values go by its constraints of two variables alone.
//!
//! Every function is total: any bytes, any position, any rule set. What is turned away is a [`Refusal`], and a refused call writes
//! nothing. Every call reads its file first and refuses it by itself, so a [`File`] may be any bytes. Give a call [`STACK`] bytes of
//! stack, but [`File::judge_formula`] [`FORMULA_STACK`]; the measured need is less.
//!
//! ```
//! use kickballbox::{File, Marks, Position, Reason, RuleSet};
//!
//! // G1 of document 01: a universal and an existential variable over {0, 1} that must differ.
//! let mut bytes = b"QP\x02\x01\x00VA\x03\x00VE\x03\x00CT\x00\x01\x02\x00\x01\x00".to_vec();
//! bytes.extend([0; 28]);
//! bytes.extend(b"EN");
//! let file = File::new(&bytes);
//!
//! let reading = file.read()?;
//! assert_eq!((reading.n, reading.m, reading.rules), (2, 1, None));
//! assert_eq!(reading.rules_to_use, RuleSet::USUAL);
//!
//! let fresh = Position::fresh();
//! assert!(file.judge(&fresh, RuleSet::USUAL)?);
//! assert_eq!(file.mark(&fresh, RuleSet::ALL)?, Marks { winning: 0b11, domain: 0b11 });
//!
//! let played = file.play(&fresh, 0)?;
//! assert_eq!(file.mark(&played, RuleSet::USUAL)?, Marks { winning: 0b10, domain: 0b11 });
//! assert_eq!(file.play(&played, 2).unwrap_err().reason, Reason::Option);
//! assert_eq!(file.take_back(&played)?, fresh);
//!
//! // A held play cannot be taken back.
//! let held = file.lock(&played)?;
//! assert_eq!(file.take_back(&held).unwrap_err().reason, Reason::Locked);
//! assert_eq!(file.unlock(&held, 0)?, played);
//!
//! // Boolean 1 is the first variable's value; 2 and 3 say that the second has the value 0, and 1.
//! assert_eq!(file.formula_text()?, "p cnf 3 3\na 1 0\ne 2 3 0\n2 3 0\n1 -2 0\n-1 -3 0\n");
//!
//! // The constraint joins the two, so that they are one group, and its file is the whole.
//! assert_eq!((file.groups()?.count, file.group_file(0)?), (1, bytes.clone()));
//! # Ok::<(), kickballbox::Refusal>(())
//! ```
#![warn(missing_docs)]

#[cfg(not(all(target_arch = "x86_64", target_os = "linux")))]
compile_error!("libhost.a is for x86-64 Linux");

mod entries;
mod file;
mod groups;
mod interface;
mod judging;
mod position;
mod problem;
mod refusal;
mod replies;
mod rule_set;
mod rules_alone;
mod session;

pub use file::File;
pub use interface::{check_interface, OtherInterface};
pub use position::Position;
pub use problem::Problem;
pub use refusal::{Reason, Refusal};
pub use replies::{Clash, Groups, JudgedFormula, LosingValue, Marks, OpenValues, PureValues, Reading, Replayed, Searched};
pub use rule_set::RuleSet;
pub use session::Session;

/// The interface that this wrapper is written for: `KB_INTERFACE` of the header.
pub const INTERFACE: u64 = 7;
/// The stack to give a call, in bytes: `KB_STACK` of the header.
pub const STACK: usize = 131072;
/// The stack to give [`File::judge_formula`], in bytes: `KB_FORMULA_STACK` of the header.
pub const FORMULA_STACK: usize = 1572864;
/// Bytes of buffer that suffice for every report: `KB_TEXT` of the header.
pub const TEXT: usize = 1024;
/// Words of room that suffice for every file: `KB_ROOM` of the header.
pub const ROOM: usize = 4224;
/// The longest accepted file in bytes: `KB_FILE` of the header. Of a longer input the first 18,763 bytes decide on number and place of
/// its refusal.
pub const FILE: usize = 17994;
/// Bytes of buffer that suffice for the text of every formula (computed and not proved): `KB_FORMULA` of the header.
pub const FORMULA: usize = 4131214;
