//! A second implementation of document 01, written from the document alone,
//! and what is needed to compare another implementation with it.

pub mod compare;
pub mod coverage;
mod form;
pub mod lent;
pub mod library;
pub mod log;
pub mod mergeability;
pub mod model;
pub mod pipes;
pub mod random;
mod slices;
mod table;
pub mod trial;
pub mod unity;
