//! The commit's files, compiled unchanged, and stand-ins for what they use of
//! their own crate. The build script stages the files; see `build.rs`.

// `types` and `disseminator`: the commit's files, with a probe in some of them.
include!(concat!(env!("OUT_DIR"), "/src/modules.rs"));

pub mod consensus;
pub mod network;
pub mod shredder;
pub mod steps;

use std::net::{Ipv4Addr, SocketAddr};

pub use types::slot::Slot;
pub use types::stake::Stake;
pub use types::validator_index::ValidatorIndex;

/// Stand-in for the crate's record of a validator, without its keys.
#[derive(Clone)]
pub struct ValidatorInfo {
    pub id: ValidatorIndex,
    pub stake: Stake,
    pub disseminator_address: SocketAddr,
}

/// Validators with these stakes; the id of each is its position.
pub fn validators(stakes: &[u64]) -> Vec<ValidatorInfo> {
    let validator = |(id, stake): (usize, &u64)| ValidatorInfo {
        id: ValidatorIndex::new(id as u64),
        stake: Stake::new(*stake),
        disseminator_address: (Ipv4Addr::UNSPECIFIED, 0).into(),
    };
    stakes.iter().enumerate().map(validator).collect()
}
