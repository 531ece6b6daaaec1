//! The independent program: the rules of documents 01 and 02, written from these alone, the slow and obvious way.
//!
//! It is the outside judge of a proved library. The two share no code and no definitions, so a rule that the library
//! reads wrongly, in its definitions too, shows as a difference here. Yes and no come from plain search; labels and
//! stored bytes follow the words; soundness is decided by making the index again and comparing bytes.
//!
//! The data's way is the reading order: [`graph`], [`closure`], [`groups`], [`labels`], [`index`], [`form`], [`stored`],
//! [`sound`] with [`every`] beside it, [`question`], [`calls`], [`batch`], [`chain`], [`added`], [`convert`], [`turned`], [`rules`], [`exceptions`], [`hierarchy`], [`host`], [`text`], [`matrix`]. [`chance`] makes graphs,
//! orders and damage for comparisons.

pub mod added;
pub mod batch;
pub mod bounds;
pub mod calls;
pub mod chain;
pub mod chance;
pub mod closure;
pub mod convert;
pub mod every;
pub mod exceptions;
pub mod form;
pub mod graph;
pub mod groups;
pub mod hierarchy;
pub mod host;
pub mod index;
pub mod labels;
pub mod matrix;
pub mod question;
pub mod refusal;
pub mod rules;
pub mod sound;
pub mod stored;
pub mod text;
pub mod turned;

pub use added::{add, ask_added, Added, MOST_ADDED};
pub use batch::ask_all;
pub use calls::{ask, build, list, open};
pub use chain::chain;
pub use convert::{convert_down, convert_up};
pub use exceptions::{ask_all_exceptions, ask_exceptions, build_exceptions, open_exceptions};
pub use form::{Form, FORMS, FORM_1, FORM_2, FORM_3, FORM_4, ORDINARY};
pub use graph::Graph;
pub use hierarchy::{ask_hierarchy, build_hierarchy, from_hierarchy, open_hierarchy, to_hierarchy};
pub use index::Index;
pub use matrix::{read_matrix, write_matrix};
pub use question::Answer;
pub use refusal::Refusal;
pub use rules::{settle_rules, Rule};
pub use stored::Counts;
pub use text::run_text;
pub use turned::{ask_turned, build_turned, list_turned, open_turned};
