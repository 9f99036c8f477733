//! A plain reference of document 01, the tote broadcast, with what document 02 changed of it and
//! added to it so far (§1 to §3 and §5 to §7): one module a section.
//! It is written for reading beside the document, not for speed.

#![forbid(unsafe_code)]

pub mod against;
pub mod broadcast;
pub mod card;
pub mod drawn;
pub mod drawn_pairs;
pub mod fair;
pub mod field;
pub mod frame;
pub mod linear;
pub mod matrix;
pub mod pair;
pub mod pair_examples;
pub mod patterns;
pub mod play;
pub mod receiver;
pub mod recordings;
pub mod scenarios;
pub mod sender;
pub mod settings;
pub mod state;
