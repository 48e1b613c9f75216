//! The rules in Rust, written from a description in words alone, which is not in this repository, and
//! without a look at the proved code. The two share no line and no idea, so where they agree byte for
//! byte, a mistake would have to be made twice.
//!
//! Data flows one way: bytes, program, rules, certification, step, replay and the walk over sequences,
//! search and listing, answers.

pub mod arbitrary;
pub mod bytes;
pub mod calls;
pub mod candidates;
pub mod certify;
pub mod known;
pub mod literal;
pub mod litmus;
pub mod machine;
pub mod outcomes;
pub mod program;
pub mod replay;
pub mod rules;
pub mod search;
pub mod sequences;
pub mod step;
pub mod worst;
