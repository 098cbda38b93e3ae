//! Reaches the relays of a slice and the relay of a shred.

use std::sync::Arc;

use quick_cache::sync::Cache;
use rand::Rng;

use super::{QuorumSamplingStrategy, Rotor};
use crate::consensus::{EpochInfo, ValidatorEpochInfo};
use crate::network::NoNetwork;
use crate::shredder::Shred;
use crate::{Slot, ValidatorIndex, validators};

/// A sampler that hands out given seats.
struct GivenSeats(Vec<ValidatorIndex>);

impl QuorumSamplingStrategy for GivenSeats {
    fn quorum_size(&self) -> usize {
        self.0.len()
    }

    fn sample_quorum<R: Rng>(&self, _rng: &mut R) -> Vec<ValidatorIndex> {
        self.0.clone()
    }
}

/// The relays of a slice where there is one validator only.
pub fn relays_of_one(slot: u64, slice: usize) -> Arc<[ValidatorIndex]> {
    Rotor::new(NoNetwork, epoch_of_one()).sample_relays(Slot::new(slot), slice)
}

/// The relay of the shred at this position, where the committee has these seats.
pub fn relay(seats: &[u64], shred: usize) -> ValidatorIndex {
    let seats = seats.iter().map(|seat| ValidatorIndex::new(*seat));
    let rotor = Rotor {
        network: NoNetwork,
        sampler: GivenSeats(seats.collect()),
        epoch_info: epoch_of_one(),
        relay_cache: Cache::new(1),
    };
    rotor.sample_relay(&Shred::at(shred))
}

fn epoch_of_one() -> Arc<ValidatorEpochInfo> {
    Arc::new(ValidatorEpochInfo {
        own_id: ValidatorIndex::new(0),
        epoch_info: EpochInfo(validators(&[1])),
    })
}
