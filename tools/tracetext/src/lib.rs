//! Traces as text: a trace is a file of 8-byte records, and its text has one record a line.
//!
//! The text is described in docs/TRACE.md, the records in document 01, "The trace program".

pub mod decode;
pub mod encode;
pub mod records;
pub mod words;
