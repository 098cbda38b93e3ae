//! Relay committees and Turbine views for a proof-of-stake network, in code that is proved.
//!
//! All nodes of a network must draw the same committee. The library behind this crate is written in
//! Rattle, a language in which the checker accepts a function only with a proof that it meets its
//! contract, does nothing undefined and ends. It follows the relay samplers and the Turbine tree of
//! qkniep/alpenglow at commit 9e5a804c61, here called the original; this crate gives them the
//! original's names.
//!
//! - A validator's id is its position in the epoch's list of stakes.
//! - In the place of a generator stand [`Words`]: a list of 64-bit words and a cursor, which an
//!   accepted call moves by the words that it read.
//! - A call is answered, or it is refused with a [`Refusal`]; then the cursor and all counts are as
//!   they were.
//!
//! ```
//! use valwydr::{FaitAccompli1Sampler, Stake, ValidatorIndex, Words, sample_relay};
//!
//! let stakes = [5, 3, 2].map(Stake::new).to_vec();
//! let sampler = FaitAccompli1Sampler::new_with_partition_fallback(stakes, 4);
//!
//! // The first words put the validators in order for the bins, the second draw from the bins.
//! let committee = sampler.sample_quorum(&mut Words::new(&[1, 2]), &mut Words::new(&[1]))?;
//! assert_eq!(committee.seats, [0, 0, 1, 2].map(ValidatorIndex::new));
//! assert_eq!(sample_relay(&committee.seats, 2)?, ValidatorIndex::new(1));
//! # Ok::<(), valwydr::Refusal>(())
//! ```
//!
//! # Panics
//!
//! No function panics on any argument: sizes that are out of bounds are refused. (Memory that runs
//! out ends a process, as everywhere, and [`turbine_seed`] and [`rotor_seed`] say what they do with
//! a library that is not this one.)
//!
//! # Memory and threads
//!
//! An answer owns its lists, so a call allocates them. Who must not allocate calls the functions of
//! `valwydr.h`, which write to memory that they are lent. The library keeps no state, and every
//! sampler is `Send` and `Sync`. A call uses up to 100 KB of stack.

#![deny(missing_docs, unsafe_code)]
#![deny(
    clippy::arithmetic_side_effects,
    clippy::expect_used,
    clippy::indexing_slicing,
    clippy::panic,
    clippy::unreachable,
    clippy::unwrap_used
)]

#[cfg(not(target_arch = "x86_64"))]
compile_error!("the library is for x86-64");

mod buffers;
pub mod decaying_acceptance;
pub mod fait_accompli;
pub mod partition;
mod refusal;
mod rotor;
mod seeds;
pub mod stake_weighted;
#[allow(unsafe_code)]
mod sys;
pub mod turbine;
mod types;
pub mod weighted_shuffle;
mod words;

pub use decaying_acceptance::{DecayingAcceptanceSampler, MAX_TRIES_PER_SAMPLE};
pub use fait_accompli::FaitAccompli1Sampler;
pub use partition::PartitionSampler;
pub use refusal::Refusal;
pub use rotor::{TOTAL_SHREDS, sample_relay};
pub use seeds::{SEED_BYTES, rotor_seed, turbine_seed};
pub use stake_weighted::{IidQuorumSampler, StakeWeightedSampler};
pub use turbine::{DEFAULT_FANOUT, MAX_FANOUT, TurbineTree};
pub use types::{Stake, ValidatorIndex};
pub use weighted_shuffle::WeightedShuffle;
pub use words::Words;

/// The longest list of stakes that a call takes.
pub const MAX_VALIDATORS: usize = 4_096;

/// The most seats of a committee, and the most bins.
pub const MAX_SEATS: usize = 1_024;
