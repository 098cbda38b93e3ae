//! Entries that draw nothing.

use std::hint::black_box;

use alpenglow::disseminator::rotor::probe::Relays;
use alpenglow::disseminator::turbine::probe::get_num_nodes_and_tree_size;
use alpenglow::shredder::{Shred, TOTAL_SHREDS};
use alpenglow::{ValidatorIndex, ValidatorInfo};
use rand::start_at;

use super::calls::{accept, write_seed};
use super::{Entry, Iid, Listed};
use crate::ffi;
use crate::input::Input;
use crate::lent::Lent;
use crate::times::Side;

/// The seed of a Turbine tree and that of a relay committee. The Rust makes each inside of the function that uses it: the
/// expressions are timed, as they stand there.
pub struct Seeds;

impl Entry for Seeds {
    const NAME: &str = "both seeds";
    const LENGTHS: &'static [usize] = &[64];
    const RUST: &'static [Side] = &[Side::Draw];

    type Given = ();
    type Sampler = ();
    type Answer = [[u8; 32]; 2];

    fn ours(lent: &mut Lent, _input: &Input, cursor: usize) {
        let [turbine, rotor] = &mut lent.seeds;
        write_seed(ffi::valwydr_turbine_seed, turbine, cursor as u64, 63);
        write_seed(ffi::valwydr_rotor_seed, rotor, cursor as u64, 63);
    }

    fn told(lent: &Lent, _input: &Input) -> Vec<u64> {
        lent.seeds.list()
    }

    fn make(_given: (), _input: &Input, _cursor: usize) {}

    fn draw(_sampler: &mut (), _input: &Input, cursor: usize) -> [[u8; 32]; 2] {
        let (slot, number) = (cursor as u64, black_box(63usize));
        let turbine = [
            b"ALPENGLOWTURBINE",
            &slot.to_be_bytes()[..],
            &number.to_be_bytes()[..],
        ]
        .concat();
        let rotor = [slot.to_be_bytes(), number.to_be_bytes(), [0; 8], [0; 8]].concat();
        [turbine, rotor].map(|seed| seed.try_into().expect("32 bytes"))
    }
}

impl Listed for [[u8; 32]; 2] {
    fn list(&self) -> Vec<u64> {
        let bytes = self.as_flattened().iter();
        bytes.map(|byte| u64::from(*byte)).collect()
    }
}

/// The relay of a shred, where the committee of its slice is at hand: in the lent seats, and in the Rust's cache.
pub struct Relay;

impl Entry for Relay {
    const NAME: &str = "`sample_relay`, committee at hand";
    const LENGTHS: &'static [usize] = &[64];
    const SEATS: &'static [usize] = &[TOTAL_SHREDS];
    const RUST: &'static [Side] = &[Side::Draw];

    type Given = Vec<ValidatorInfo>;
    type Sampler = Relays;
    type Answer = ValidatorIndex;

    fn ours(lent: &mut Lent, _input: &Input, cursor: usize) {
        accept(unsafe {
            ffi::valwydr_sample_relay(
                lent.seats.as_ptr(),
                TOTAL_SHREDS,
                cursor % TOTAL_SHREDS,
                lent.answer.as_mut_ptr().cast(),
            )
        });
    }

    fn told(lent: &Lent, _input: &Input) -> Vec<u64> {
        vec![lent.answer[0]]
    }

    /// The first shred has the Rust draw the committee.
    fn make(validators: Vec<ValidatorInfo>, _input: &Input, _cursor: usize) -> Relays {
        start_at(0);
        let relays = Relays::new(validators);
        relays.relay(&Shred::at(0));
        relays
    }

    fn draw(relays: &mut Relays, _input: &Input, cursor: usize) -> ValidatorIndex {
        relays.relay(&Shred::at(cursor % TOTAL_SHREDS))
    }

    fn renew_lent(lent: &mut Lent, input: &Input) {
        Iid::ours(lent, input, 0);
    }
}

pub struct Sizes;

impl Entry for Sizes {
    const NAME: &str = "`get_num_nodes_and_tree_size`";
    const RUST: &'static [Side] = &[Side::Draw];

    type Given = ();
    type Sampler = ();
    type Answer = (usize, usize);

    fn ours(lent: &mut Lent, input: &Input, _cursor: usize) {
        let count = black_box(input.n());
        unsafe {
            ffi::valwydr_get_num_nodes_and_tree_size(count, lent.answer.as_mut_ptr().cast());
        }
    }

    fn told(lent: &Lent, _input: &Input) -> Vec<u64> {
        lent.answer[..2].to_vec()
    }

    fn make(_given: (), _input: &Input, _cursor: usize) {}

    fn draw(_sampler: &mut (), input: &Input, _cursor: usize) -> (usize, usize) {
        get_num_nodes_and_tree_size(black_box(input.n()))
    }
}

impl Listed for (usize, usize) {
    fn list(&self) -> Vec<u64> {
        vec![self.0 as u64, self.1 as u64]
    }
}
