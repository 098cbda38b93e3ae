//! A relay committee and a Turbine tree of a sample epoch: `cargo run --offline --example epoch`.

use valwydr::fait_accompli::Committee;
use valwydr::{
    FaitAccompli1Sampler, Refusal, Stake, TOTAL_SHREDS, TurbineTree, ValidatorIndex, Words,
    rotor_seed, sample_relay, turbine_seed,
};

/// The validators of the epoch and their stakes. A validator's id is its place.
const VALIDATORS: [(&str, u64); 12] = [
    ("alder", 182_000),
    ("birch", 151_500),
    ("cedar", 120_250),
    ("dogwood", 96_000),
    ("elm", 88_400),
    ("fir", 71_000),
    ("ginkgo", 64_900),
    ("hazel", 52_300),
    ("ivy", 40_000),
    ("juniper", 31_750),
    ("larch", 18_600),
    ("maple", 9_300),
];

const SLOT: u64 = 4_200;
const SLICE: usize = 3;
const SHRED: usize = 17;

/// Small, so that twelve validators make a tree of some depth.
const FANOUT: usize = 3;

/// The validator whose own view is shown.
const OWN_ID: ValidatorIndex = ValidatorIndex::new(6);

fn main() -> Result<(), Refusal> {
    println!("The words come from a small generator in this example.");
    println!("A node takes them from its own generator, seeded with the same seeds.");

    let committee = draw_committee()?;
    show_committee(&committee);
    show_relays(&committee)?;

    let trees = all_views()?;
    show_tree(&trees);
    show_view(&trees[OWN_ID.as_usize()]);
    Ok(())
}

/// The stakes of the epoch.
fn stakes() -> Vec<Stake> {
    VALIDATORS.map(|(_, stake)| Stake::new(stake)).to_vec()
}

/// The name of a validator.
fn name(id: ValidatorIndex) -> &'static str {
    VALIDATORS[id.as_usize()].0
}

/// Words from a seed, by SplitMix64: for this example, and not for a network.
fn words_of(seed: &[u8]) -> Vec<u64> {
    let mut state = seed.iter().fold(0, |state: u64, byte| {
        state.rotate_left(8) ^ u64::from(*byte)
    });
    let mut next = || {
        state = state.wrapping_add(0x9e37_79b9_7f4a_7c15);
        let mixed = (state ^ (state >> 30)).wrapping_mul(0xbf58_476d_1ce4_e5b9);
        let mixed = (mixed ^ (mixed >> 27)).wrapping_mul(0x94d0_49bb_1331_11eb);
        mixed ^ (mixed >> 31)
    };
    (0..256).map(|_| next()).collect()
}

/// The relay committee of the slice.
fn draw_committee() -> Result<Committee, Refusal> {
    let bins = words_of(b"the order of the bins in this epoch");
    let seats = words_of(&rotor_seed(SLOT, SLICE));
    FaitAccompli1Sampler::new_with_partition_fallback(stakes(), TOTAL_SHREDS as u64)
        .sample_quorum(&mut Words::new(&bins), &mut Words::new(&seats))
}

/// A row for each validator: its stake, its share, and a bar of its seats.
fn show_committee(committee: &Committee) {
    let total: u64 = VALIDATORS.iter().map(|(_, stake)| stake).sum();
    println!(
        "\nRelay committee of slot {SLOT}, slice {SLICE}: {TOTAL_SHREDS} seats, FA1 over bins\n"
    );
    println!("  id  validator    stake    share  fixed  drawn  seats (# fixed, + drawn)");
    for (id, (name, stake)) in VALIDATORS.into_iter().enumerate() {
        let held = |seats: &[ValidatorIndex]| seats.iter().filter(|s| s.as_usize() == id).count();
        let fixed = held(committee.fixed_seats());
        let drawn = held(committee.further_seats());
        let share = 100.0 * stake as f64 / total as f64;
        let bar = "#".repeat(fixed) + &"+".repeat(drawn);
        println!("  {id:>2}  {name:<9}  {stake:>7}  {share:>5.1} %  {fixed:>5}  {drawn:>5}  {bar}");
    }
    let fixed = committee.fixed_seats().len();
    let drawn = committee.further;
    println!(
        "      {:<9}  {total:>7}  100.0 %  {fixed:>5}  {drawn:>5}",
        "together"
    );
}

/// For each validator the shreds of the slice that it relays.
fn show_relays(committee: &Committee) -> Result<(), Refusal> {
    println!(
        "\nRelays of the shreds 0 to {} of the slice\n",
        TOTAL_SHREDS - 1
    );
    let relays = (0..TOTAL_SHREDS).map(|shred| sample_relay(&committee.seats, shred));
    let relays = relays.collect::<Result<Vec<_>, _>>()?;
    for (id, (name, _)) in VALIDATORS.into_iter().enumerate() {
        let shreds = (0..TOTAL_SHREDS).filter(|shred| relays[*shred].as_usize() == id);
        println!("  {name:<9}  {}", ranges(shreds));
    }
    Ok(())
}

/// Rising numbers as ranges, such as `0-3 7`.
fn ranges(numbers: impl Iterator<Item = usize>) -> String {
    let mut ranges: Vec<(usize, usize)> = Vec::new();
    for number in numbers {
        match ranges.last_mut() {
            Some((_, last)) if *last + 1 == number => *last = number,
            _ => ranges.push((number, number)),
        }
    }
    let texts = ranges.into_iter().map(|range| match range {
        (first, last) if first == last => first.to_string(),
        (first, last) => format!("{first}-{last}"),
    });
    texts.collect::<Vec<_>>().join(" ")
}

/// What each validator sees of the shred's Turbine tree, each by a call of its own.
fn all_views() -> Result<Vec<TurbineTree>, Refusal> {
    let list = words_of(&turbine_seed(SLOT, SHRED));
    let ids = (0..VALIDATORS.len() as u64).map(ValidatorIndex::new);
    ids.map(|id| TurbineTree::new(&stakes(), FANOUT, id, &mut Words::new(&list)))
        .collect()
}

/// The tree that the views make together.
fn show_tree(trees: &[TurbineTree]) {
    println!("\nTurbine tree of slot {SLOT}, shred {SHRED}: fanout {FANOUT}\n");
    let root = trees[0].get_root();
    println!("  {}", name(root));
    show_below(trees, root, "  ");
}

/// The children of a validator, each with its own below it.
fn show_below(trees: &[TurbineTree], id: ValidatorIndex, indent: &str) {
    let children = trees[id.as_usize()].get_children();
    for (place, child) in children.iter().enumerate() {
        let last = place + 1 == children.len();
        let (branch, below) = if last {
            ("└── ", "    ")
        } else {
            ("├── ", "│   ")
        };
        println!("{indent}{branch}{}", name(*child));
        show_below(trees, *child, &format!("{indent}{below}"));
    }
}

/// One validator's own view.
fn show_view(tree: &TurbineTree) {
    let children = tree.get_children().iter().copied().map(name);
    println!("\nWhat {} sees of it\n", name(OWN_ID));
    println!("  root      {}", name(tree.get_root()));
    println!("  parent    {}", tree.get_parent().map_or("none", name));
    println!("  children  {}", children.collect::<Vec<_>>().join(", "));
}
