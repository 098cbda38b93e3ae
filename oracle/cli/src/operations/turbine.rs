//! The weighted shuffle and the view of a Turbine tree.

use alpenglow::disseminator::turbine::probe;
use rand::rng;

use crate::answer::Answer;
use crate::case::Case;

pub fn tree(case: &Case) -> Answer {
    let tree = probe::tree(case.list("stakes"));
    Answer::new()
        .field("num_nodes", tree.num_nodes)
        .field("size", tree.size)
        .list("sums", tree.sums)
        .field("weight", tree.weight)
        .list("zeros", tree.zeros)
}

/// Past 2^60 the Rust's products wrap, and its loop does not end.
pub fn sizes(case: &Case) -> Answer {
    let count = case.index("count");
    assert!(count <= 1 << 60, "not run: the Rust does not end here");
    let (num_nodes, size) = probe::sizes(count);
    Answer::new()
        .field("num_nodes", num_nodes)
        .field("size", size)
}

pub fn shuffle(case: &Case) -> Answer {
    let order = probe::order(case.list("stakes"), &mut rng());
    Answer::new().list("order", order).read()
}

/// The slot and the shred only seed the words, which the case gives.
pub fn view(case: &Case) -> Answer {
    let (fanout, own) = (case.index("fanout"), case.number("own"));
    let view = probe::view(case.list("stakes"), fanout, own, 0, 0);
    let parent = view.parent.map_or("none".into(), |id| id.to_string());
    Answer::new()
        .field("root", view.root)
        .field("parent", parent)
        .list("children", view.children)
        .read()
}
