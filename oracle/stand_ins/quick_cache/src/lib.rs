//! Stand-in for the crate `quick_cache`: a cache that keeps nothing.

pub mod sync {
    use std::marker::PhantomData;

    pub struct Cache<K, V>(PhantomData<(K, V)>);

    impl<K, V> Cache<K, V> {
        pub fn new(_capacity: usize) -> Self {
            Self(PhantomData)
        }

        pub fn get(&self, _key: &K) -> Option<V> {
            None
        }

        pub fn insert(&self, _key: K, _value: V) {}
    }
}
