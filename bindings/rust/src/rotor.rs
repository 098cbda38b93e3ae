//! The relay of a shred.

use crate::{Refusal, ValidatorIndex, sys};

/// The shreds of a slice.
pub const TOTAL_SHREDS: usize = 64;

/// The relay of a shred: the seat at the shred's position in its slice, of the committee that was
/// drawn for the slice.
///
/// ```
/// use valwydr::{Refusal, ValidatorIndex, sample_relay};
///
/// let committee = [4, 2, 7].map(ValidatorIndex::new);
/// assert_eq!(sample_relay(&committee, 1), Ok(ValidatorIndex::new(2)));
/// assert_eq!(sample_relay(&committee, 3), Err(Refusal::NotBelow));
/// ```
///
/// The relay of a shred as a node finds it, which seeds its own generator:
///
/// ```
/// use std::sync::Arc;
/// use valwydr::{Stake, StakeWeightedSampler, TOTAL_SHREDS, ValidatorIndex, Words};
/// use valwydr::{rotor_seed, sample_relay};
///
/// # struct StdRng(u64);
/// # impl StdRng {
/// #     fn from_seed(seed: [u8; 32]) -> Self {
/// #         Self(u64::from(seed[7]))
/// #     }
/// #     fn next_u64(&mut self) -> u64 {
/// #         self.0 += 7;
/// #         self.0
/// #     }
/// # }
/// let stakes = vec![Stake::new(1); 10];
/// let sampler = StakeWeightedSampler::new(stakes).into_quorum_strategy(TOTAL_SHREDS);
/// let (slot, slice, shred) = (4, 0, 2);
/// let mut rng = StdRng::from_seed(rotor_seed(slot, slice));
/// let list: Vec<u64> = (0..256).map(|_| rng.next_u64()).collect();
/// let mut words = Words::new(&list);
/// let relays: Arc<[ValidatorIndex]> = sampler.sample_quorum(&mut words)?.seats.into();
/// let relay = sample_relay(&relays, shred)?;
/// assert_eq!(relay.inner(), (4 + 3 * 7) % 10);
/// # Ok::<(), valwydr::Refusal>(())
/// ```
///
/// # Errors
///
/// [`Size`](Refusal::Size), [`NotBelow`](Refusal::NotBelow).
pub fn sample_relay(committee: &[ValidatorIndex], shred: usize) -> Result<ValidatorIndex, Refusal> {
    let [id] = sys::sample_relay(committee, shred)?;
    Ok(ValidatorIndex::new(id))
}
