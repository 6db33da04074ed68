//! The signer over executors of these tests: what many threads get, what a dropped future leaves, and each refusal.
mod drops;
mod many;
mod order;
mod pool;
mod reentry;
mod refusals;
mod steps;
mod world;
