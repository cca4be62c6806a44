//! Tests of the whole program, without a process.

mod csv;
mod damaged;
mod examples;
mod faults;
mod gauges;
mod refusals;
mod run;
mod samples;
