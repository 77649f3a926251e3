//! The desk's command. Rows, stations and refusals come from the proved library; what it does not answer comes from
//! the second reading of document 01, which is held against the library at each use.

#![deny(unsafe_code)]

pub mod agreement;
pub mod between_arcs;
pub mod call;
pub mod commands;
pub mod compare;
pub mod csv;
pub mod fault;
pub mod files;
pub mod folder;
pub mod help;
pub mod language;
pub mod list;
pub mod make;
pub mod manual;
pub mod marks;
pub mod names;
pub mod next;
pub mod pegs;
pub mod quantity;
pub mod reading;
pub mod refusals;
pub mod report;
pub mod row;
pub mod rows;
pub mod rule_book;
pub mod show;
pub mod source;
pub mod streams;
pub mod text;
pub mod why;
pub mod words;
pub mod writing;
