//! Stand-in for the crate's networks and the trait of its disseminators.

use std::future::{Future, pending, ready};
use std::io;
use std::net::SocketAddr;

use crate::shredder::Shred;

pub trait Network {}

/// A network of shreds; as given here it sends nothing and receives nothing.
pub trait ShredNetwork: Network {
    fn send(&self, _: &Shred, _: SocketAddr) -> impl Future<Output = io::Result<()>> {
        ready(Ok(()))
    }

    fn send_to_many(
        &self,
        _: &Shred,
        _: impl Iterator<Item = SocketAddr>,
    ) -> impl Future<Output = io::Result<()>> {
        ready(Ok(()))
    }

    fn receive(&self) -> impl Future<Output = io::Result<Shred>> {
        pending()
    }
}

/// The network of a disseminator that is asked for its relays only.
pub struct NoNetwork;

impl Network for NoNetwork {}

impl ShredNetwork for NoNetwork {}

pub trait Disseminator {
    fn send(&self, shred: &Shred) -> impl Future<Output = io::Result<()>>;

    fn forward(&self, shred: &Shred) -> impl Future<Output = io::Result<()>>;

    fn receive(&self) -> impl Future<Output = io::Result<Shred>>;
}
