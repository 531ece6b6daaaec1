//! The rules of the document, tried one by one. Each test is named after the rule it tries.

mod adding;
mod chaining;
mod chance;
mod commands;
mod converting;
mod desk;
mod exceptions;
mod given;
mod hierarchies;
mod labels;
mod listing;
mod questions;
mod reckoned;
mod refusals_build;
mod refusals_stored;
mod sizes;
mod soundness;
mod text;
mod upstream;
