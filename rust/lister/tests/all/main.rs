//! The lister against the numbers of docs/RULES.md, against a published example, and its ways against each
//! other. Every expected number is from the rules, from the publication or worked by hand.

mod bounds;
mod lateness;
mod program;
mod questions;
mod random;
mod records;
mod samples;
mod steps;
mod tables;
