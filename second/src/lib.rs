//! Progressive line families: packs of bytes, the marker, the search for the first least family, and the sheet.

pub mod fault;
pub mod hex;
pub mod job;
pub mod line;
pub mod marker;
pub mod measure;
pub mod pack;
pub mod price;
pub mod programs;
pub mod script;
pub mod search;
pub mod sheet;

#[cfg(test)]
mod samples;
