//! The examples of the papers, the refusals and their order, and the program's lines.

mod answers;
mod builder;
mod committee;
mod currencies;
mod entered;
mod generated;
mod joined;
mod lists;
mod lme;
mod method;
mod order;
mod program;
mod reckoned;
mod refusals;
mod runs;
mod screen;
mod statements;
mod takes;
mod tenths;
mod tickets;
mod unit_price_risk;
mod units;
mod wrong;
