//! Draws from a range and draws by weight.

pub mod uniform;
pub mod weighted;
