//! The reference machine of the row controller's cell store, written from the
//! papers alone: table, packet queue, row calls, collector step, audit, the
//! session program, the load program (request A2 of document 02), rule text in
//! and out (A4), a runner for lists of stores, the seat roster (A7) as a plain list
//! with a runner of its own, and generators. Document 01 is here what requests A1,
//! A3, A5, A6 and A8 make of it.

pub mod annotate;
pub mod audit;
pub mod call;
pub mod collector;
pub mod format;
pub mod generate;
pub mod lines;
pub mod load;
pub mod naming;
pub mod notation;
pub mod question;
pub mod queue;
pub mod roster;
pub mod row;
pub mod rule_text;
pub mod rules;
pub mod session;
pub mod states;
pub mod store;
pub mod table;
mod text;
pub mod text_call;
