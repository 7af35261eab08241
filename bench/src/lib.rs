//! The margin job written for speed, and the accounts that it is timed on.

pub mod accounts;
pub mod tuned;

#[cfg(test)]
mod agree;
