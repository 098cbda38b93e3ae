//! Stand-in for the crate's records of an epoch.

use crate::{Slot, ValidatorIndex, ValidatorInfo};

/// The validators of an epoch.
pub struct EpochInfo(pub Vec<ValidatorInfo>);

impl EpochInfo {
    pub fn validators(&self) -> &[ValidatorInfo] {
        &self.0
    }

    pub fn validator(&self, id: ValidatorIndex) -> &ValidatorInfo {
        &self.0[id.as_usize()]
    }

    /// Only the network's side asks for a leader, and it is never run.
    pub fn leader(&self, _slot: Slot) -> &ValidatorInfo {
        unimplemented!("there is no leader schedule")
    }
}

/// An epoch as one validator sees it.
pub struct ValidatorEpochInfo {
    pub own_id: ValidatorIndex,
    pub epoch_info: EpochInfo,
}

impl ValidatorEpochInfo {
    pub fn own_id(&self) -> ValidatorIndex {
        self.own_id
    }

    pub fn epoch_info(&self) -> &EpochInfo {
        &self.epoch_info
    }
}
