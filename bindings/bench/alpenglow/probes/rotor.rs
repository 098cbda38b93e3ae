//! Reaches the relay of a shred.

use std::sync::Arc;

use super::{IidQuorumSampler, Rotor, StakeWeightedSampler};
use crate::consensus::{EpochInfo, ValidatorEpochInfo};
use crate::network::NoNetwork;
use crate::shredder::Shred;
use crate::{ValidatorIndex, ValidatorInfo};

/// The relays of a slice, whose committee is drawn for the first shred and then kept.
pub struct Relays(Rotor<NoNetwork, IidQuorumSampler<StakeWeightedSampler>>);

impl Relays {
    pub fn new(validators: Vec<ValidatorInfo>) -> Self {
        let epoch_info = ValidatorEpochInfo {
            own_id: ValidatorIndex::new(0),
            epoch_info: EpochInfo(validators),
        };
        Self(Rotor::new(NoNetwork, Arc::new(epoch_info)))
    }

    pub fn relay(&self, shred: &Shred) -> ValidatorIndex {
        self.0.sample_relay(shred)
    }
}
