//! Tests of the public interface: the specification's examples, byte examples, whole sessions.
//!
//! E1 to E13 and E21 to E23 are the specification's examples.

mod byte_limits;
mod examples;
mod folding;
mod hashing;
mod labels;
mod reading;
mod refusals;
mod round_trip;
mod sessions;
mod support;
mod writing;
