//! A second implementation of the register desk, written from its paper alone, and what is needed to compare it with the library.

pub mod alike;
pub mod cards;
pub mod causes;
pub mod chance;
pub mod chase;
pub mod damage;
pub mod damage_bytes;
pub mod damage_pairs;
pub mod dense;
pub mod dense_kinds;
pub mod dense_questions;
pub mod dense_relations;
pub mod explain;
pub mod explain_asks;
pub mod explain_cases;
pub mod explain_kinds;
pub mod helpers;
pub mod join;
pub mod library;
pub mod limits;
pub mod lost_tags;
pub mod make;
pub mod make_pairs;
pub mod many_members;
pub mod matches;
pub mod near_misses;
pub mod pair_kinds;
pub mod refusals;
pub mod rename_cases;
pub mod rename_kinds;
pub mod rename_questions;
pub mod renamings;
pub mod replay;
pub mod rewrite;
pub mod rule_sheet;
pub mod scan;
pub mod sheets;
pub mod unions;
pub mod write;

#[cfg(test)]
mod explain_vectors;
#[cfg(test)]
mod pair_refusal_vectors;
#[cfg(test)]
mod pair_vectors;
#[cfg(test)]
mod rename_vectors;
#[cfg(test)]
mod union_vectors;
#[cfg(test)]
mod vectors;
