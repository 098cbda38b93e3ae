//! What the library is lent: buffers for the longest list and the largest committee, used for call after call.

use crate::ffi::Node;

const MOST_VALIDATORS: usize = 4096;
const MOST_SEATS: usize = 1024;
const MOST_PIECES: usize = MOST_VALIDATORS + MOST_SEATS;
const MOST_NODES: usize = 273;

pub struct Lent {
    pub seats: Vec<u64>,
    pub piece_bins: Vec<u64>,
    pub piece_validators: Vec<u64>,
    pub piece_stakes: Vec<u64>,
    pub counts: Vec<u32>,
    pub order: Vec<u64>,
    pub nodes: Vec<Node>,
    pub children: Vec<u64>,
    pub seeds: [[u8; 32]; 2],
    pub answer: [u64; 4],
}

impl Lent {
    pub fn new() -> Self {
        Self {
            seats: vec![0; MOST_SEATS],
            piece_bins: vec![0; MOST_PIECES],
            piece_validators: vec![0; MOST_PIECES],
            piece_stakes: vec![0; MOST_PIECES],
            counts: vec![0; MOST_VALIDATORS],
            order: vec![0; MOST_VALIDATORS],
            nodes: vec![[0; 16]; MOST_NODES],
            children: vec![0; MOST_VALIDATORS],
            seeds: [[0; 32]; 2],
            answer: [0; 4],
        }
    }
}
