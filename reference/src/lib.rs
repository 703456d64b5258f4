//! The firm capacity book of document 01, written a second time from the papers alone.

pub mod answers;
pub mod book;
pub mod call;
pub mod card;
pub mod cases;
pub mod charge;
pub mod desk;
pub mod field;
pub mod items;
pub mod journal;
pub mod lines;
pub mod listing;
pub mod narrow;
pub mod number;
pub mod offer;
pub mod outages;
pub mod page;
pub mod plant;
pub mod random;
pub mod range;
pub mod record;
pub mod share;
pub mod summary;
pub mod text;
pub mod whole_kilowatts;

#[cfg(test)]
mod examples;
