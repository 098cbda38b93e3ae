//! The seeds of Turbine trees and relay committees.

use crate::sys;

/// The bytes of a seed.
pub const SEED_BYTES: usize = 32;

/// The seed of the Turbine tree for a shred of a slot, by its index in the slot:
/// `ALPENGLOWTURBINE`, slot and shred.
///
/// ```
/// let seed = valwydr::turbine_seed(1, 2);
/// assert_eq!(&seed[..16], b"ALPENGLOWTURBINE");
/// assert_eq!(seed[16..], [0, 0, 0, 0, 0, 0, 0, 1, 0, 0, 0, 0, 0, 0, 0, 2]);
/// ```
///
/// # Panics
///
/// Where another library is linked that does not write the seed; this one does.
pub fn turbine_seed(slot: u64, shred: usize) -> [u8; SEED_BYTES] {
    sys::turbine_seed(slot, shred as u64)
}

/// The seed of the relay committee for a slice of a slot: slot, slice and 16 zero bytes.
///
/// ```
/// let seed = valwydr::rotor_seed(1, 2);
/// assert_eq!(seed[..16], [0, 0, 0, 0, 0, 0, 0, 1, 0, 0, 0, 0, 0, 0, 0, 2]);
/// assert_eq!(seed[16..], [0; 16]);
/// ```
///
/// # Panics
///
/// Where another library is linked that does not write the seed; this one does.
pub fn rotor_seed(slot: u64, slice: usize) -> [u8; SEED_BYTES] {
    sys::rotor_seed(slot, slice as u64)
}
