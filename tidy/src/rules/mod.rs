//! The rules. Each gives the faults that it finds.

pub mod dead;
pub mod dependencies;
pub mod documents;
pub mod imports;
pub mod names;
pub mod specs;
pub mod tried;
