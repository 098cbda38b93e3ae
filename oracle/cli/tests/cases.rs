//! Whole cases with answers worked out by hand.

use oracle::answer;

/// Lines in pairs, a case and its answer; `#` starts a remark, and empty lines do not count.
fn check(text: &str) {
    let lines = text.lines().map(str::trim);
    let lines: Vec<&str> = lines
        .filter(|line| !line.is_empty() && !line.starts_with('#'))
        .collect();
    let (pairs, rest) = lines.as_chunks();
    assert!(!pairs.is_empty() && rest.is_empty(), "cases and answers");
    for [case, expected] in pairs {
        assert_eq!(answer(case).as_deref(), Ok(*expected), "{case}");
    }
}

/// A list of the same number, again and again.
fn repeated(number: &str, count: usize) -> String {
    match count {
        0 => "-".into(),
        _ => vec![number; count].join(","),
    }
}

#[test]
fn draws() {
    check(
        "
        below m=10 words=18446744073709551610,13
        ok value=3 read=2
        below m=10 words=18446744073709551609
        ok value=9 read=1
        below m=1 words=7
        ok value=0 read=1
        below m=10 words=-
        dry
        below m=10 words=18446744073709551610
        dry

        # the bits of 0.5
        fraction words=9223372036854775808
        ok bits=4602678819172646912 read=1

        weighted weights=0,2,0,3 words=0
        ok place=1 read=1
        weighted weights=0,2,0,3 words=2
        ok place=3 read=1
        ",
    );
}

#[test]
fn list_shuffles() {
    check(
        "
        list_shuffle list=10,11,12,13 words=0,1,5
        ok list=11,13,10,12 read=3
        list_shuffle list=- words=3
        ok list=- read=0
        list_shuffle list=10,11,12,13 words=0,1
        dry
        ",
    );
}

#[test]
fn plain_draws() {
    check(
        "
        # total 7: the draw 2 is below 3, the draws 3 and 6 are not
        iid stakes=3,0,4 k=3 words=2,3,13
        ok seats=0,2,2 read=3
        iid stakes=3,0,4 k=0 words=5
        ok seats=- read=0
        iid stakes=0,0 k=0 words=-
        panic validator stakes should be non-empty and positive: InsufficientNonZero
        iid stakes=18446744073709551615,1 k=1 words=0
        panic validator stakes should be non-empty and positive: Overflow
        ",
    );
}

#[test]
fn bins() {
    check(
        "
        # words 1, 2 leave the list as it is; words 0, 0 make it 2, 0, 1
        partition stakes=3,0,4 bins=2 words=1,2 words2=3,3
        ok seats=2,2 piece_bins=0,0,1 piece_validators=0,2,2 piece_stakes=3,1,3 read=2 read2=2
        partition stakes=3,0,4 bins=2 words=0,0 words2=0,1
        ok seats=2,0 piece_bins=0,1 piece_validators=2,0 piece_stakes=4,3 read=2 read2=2

        partition stakes=5 bins=3 words=- words2=0,0,0
        ok seats=0,0,0 piece_bins=0,1,2 piece_validators=0,0,0 piece_stakes=2,2,1 read=0 read2=3
        partition stakes=5 bins=4 words=- words2=0,0,0,0
        panic validator stakes should be non-empty and positive: InvalidInput
        partition stakes=- bins=0 words=1 words2=1
        ok seats=- piece_bins=- piece_validators=- piece_stakes=- read=0 read2=0
        partition stakes=1,1 bins=1 words=- words2=0
        dry
        partition stakes=1,1 bins=1 words=0 words2=-
        dry
        ",
    );
}

#[test]
fn fixed_seats() {
    check(
        "
        # fixed 2, 1, 0; kept 0, 1, 2; one further seat
        fa1_bins stakes=5,3,2 k=4 words=1,2 words2=1
        ok seats=0,0,1,2 further=1 piece_bins=0,0 piece_validators=1,2 piece_stakes=1,2 read=2 read2=1
        fa1_draws stakes=5,3,2 k=4 words=0
        ok seats=0,0,1,1 further=1 read=1

        fa1_bins stakes=9223372036854775808 k=2 words=- words2=-
        ok seats=0,0 further=0 piece_bins=- piece_validators=- piece_stakes=- read=0 read2=0
        fa1_draws stakes=1 k=0 words=-
        panic attempt to divide by zero
        ",
    );
}

#[test]
fn the_rounded_product_gives_no_fixed_seat_for_49() {
    for (k, further) in [(49, 49), (48, 0)] {
        let (stakes, words) = (repeated("1", k), repeated("0", further));
        let answer = answer(&format!("fa1_draws stakes={stakes} k={k} words={words}")).unwrap();
        let expected = format!(" further={further} read={further}");
        assert!(answer.ends_with(&expected), "{answer}");
    }
}

#[test]
fn runs_that_would_not_end_are_stopped() {
    check(
        "
        partition stakes=18446744073709551615,2 bins=1 words=0 words2=0
        panic stopped: the Rust does not end here

        # 2^60 - 1, twice 3 * 2^59, and 1: the first gets a fixed seat by
        # rounding, and what it keeps is 2^64 - 1
        fa1_bins stakes=1152921504606846975,1729382256910270464,1729382256910270464,1 k=4 words=0,0,0 words2=0
        panic stopped: the Rust does not end here

        # the next case starts to count anew
        partition stakes=1 bins=1 words=- words2=0
        ok seats=0 piece_bins=0 piece_validators=0 piece_stakes=1 read=0 read2=1

        fa1_draws stakes=18446744073709551615,2 k=9 words=0
        panic not run: the total wraps, and gives too many fixed seats
        iid stakes=1 k=1048577 words=0
        panic not run: k above 1048576
        ",
    );
}

#[test]
fn decaying_seats() {
    check(
        "
        # max_samples 2.0, by its bits
        decaying_one stakes=1 max_samples=4611686018427387904 allowed=100000 counts=1 words=0,9223372036854775808
        ok seat=0 counts=2 tries=1 read=2
        decaying_one stakes=1 max_samples=4611686018427387904 allowed=100000 counts=1 words=0,9223372036854775807
        dry
        decaying_one stakes=1 max_samples=4611686018427387904 allowed=100000 counts=1 words=0,9223372036854775807,0,9223372036854775808
        ok seat=0 counts=2 tries=2 read=4

        # max_samples 1.0
        decaying stakes=1,1 k=2 max_samples=4607182418800017408 allowed=100000 counts=0,0 words=0,0,0,0,1,0
        ok seats=0,1 counts=0,0 tries=3 read=6
        decaying stakes=1,1 k=1 max_samples=4607182418800017408 allowed=100000 counts=1,0 words=0,0,1,0
        ok seats=1 counts=0,0 tries=2 read=4
        decaying stakes=1 k=1 max_samples=4607182418800017408 allowed=9 counts=0 words=0,0
        panic allowance is fixed
        ",
    );
}

#[test]
fn counts_are_reset() {
    check(
        "
        reset counts=0,7,4294967295
        ok counts=0,0,0
        ",
    );
}

#[test]
fn an_allowance_may_be_used_up() {
    let case = "decaying_one stakes=1 max_samples=4607182418800017408 allowed=100000 counts=1";
    for (count, expected) in [
        (200_000, "panic rejected all 100000 samples"),
        (199_999, "dry"),
    ] {
        check(&format!(
            "{case} words={}\n{expected}",
            repeated("0", count)
        ));
    }
}

#[test]
fn tree_sizes() {
    for (count, num_nodes, size) in [(0, 1, 0), (16, 1, 1), (17, 17, 3), (4096, 273, 273)] {
        let answer = answer(&format!("tree stakes={}", repeated("1", count))).unwrap();
        let start = format!("ok num_nodes={num_nodes} size={size} sums=");
        let end = format!(" weight={count} zeros=-");
        assert!(
            answer.starts_with(&start) && answer.ends_with(&end),
            "{answer}"
        );
    }
}

#[test]
fn sizes_of_any_count() {
    check(
        "
        sizes count=0
        ok num_nodes=1 size=0
        sizes count=17
        ok num_nodes=17 size=3
        sizes count=65536
        ok num_nodes=4369 size=4369
        sizes count=1152921504606846976
        ok num_nodes=76861433640456465 size=76861433640456465
        sizes count=1152921504606846977
        panic not run: the Rust does not end here
        ",
    );
}

#[test]
fn weighted_shuffles() {
    check(
        "
        tree stakes=18446744073709551615,1,0
        ok num_nodes=1 size=1 sums=18446744073709551615,0,0,0,0,0,0,0,0,0,0,0,0,0,0,0 weight=18446744073709551615 zeros=1,2
        shuffle stakes=2,0,3 words=4,1,0
        ok order=2,0,1 read=3
        shuffle stakes=- words=4
        ok order=- read=0
        shuffle stakes=2,0,3 words=4,1
        dry

        # zeros 0, 1, 2: the last moves into the gap
        shuffle stakes=0,0,0 words=0,0,0
        ok order=0,2,1 read=3
        ",
    );
}

#[test]
fn sums_stand_in_the_node_of_their_sub_tree() {
    let answer = answer(&format!("tree stakes=5{}", ",1".repeat(17))).unwrap();
    let node = |sums: &str, zeros: usize| format!("{sums}{}", ",0".repeat(zeros));
    let root = node("20,2", 14);
    let first = format!("5{}", ",1".repeat(15));
    let second = node("1,1", 14);
    let expected = format!("ok num_nodes=17 size=3 sums={root},{first},{second} weight=22 zeros=-");
    assert_eq!(answer, expected);
}

#[test]
fn views() {
    check(
        "
        turbine stakes=2,0,3 fanout=2 own=2 words=4,1,0
        ok root=2 parent=none children=0,1 read=3
        turbine stakes=2,0,3 fanout=1 own=0 words=4,1,0
        ok root=2 parent=2 children=1 read=3
        turbine stakes=2,0,3 fanout=0 own=0 words=4,1,0
        panic attempt to divide by zero
        turbine stakes=2,0,3 fanout=0 own=2 words=4,1,0
        ok root=2 parent=none children=- read=3
        turbine stakes=2,0,3 fanout=1 own=3 words=4,1,0
        panic own validator id should be in the validator set
        ",
    );
}

#[test]
fn seeds() {
    check(
        "
        turbine_seed slot=1 shred=515
        ok bytes=65,76,80,69,78,71,76,79,87,84,85,82,66,73,78,69,0,0,0,0,0,0,0,1,0,0,0,0,0,0,2,3
        rotor_seed slot=258 slice=3
        ok bytes=0,0,0,0,0,0,1,2,0,0,0,0,0,0,0,3,0,0,0,0,0,0,0,0,0,0,0,0,0,0,0,0
        ",
    );
}

#[test]
fn relays() {
    check(
        "
        relay seats=7,3,7 shred=1
        ok id=3
        relay seats=7,3,7 shred=3
        panic index out of bounds: the len is 3 but the index is 3
        relay seats=- shred=0
        panic index out of bounds: the len is 0 but the index is 0
        ",
    );
}

#[test]
fn relays_of_every_shred_of_a_slice() {
    let seats: Vec<String> = (100..165).map(|seat| seat.to_string()).collect();
    let case = |shred| format!("relay seats={} shred={shred}", seats.join(","));
    for shred in 0..64 {
        check(&format!("{}\nok id={}", case(shred), 100 + shred));
    }
    check(&format!("{}\npanic no shred index", case(64)));
}

#[test]
fn arithmetic_on_stakes() {
    check(
        "
        div_ceil stake=7 divisor=2
        ok result=4
        div_ceil stake=7 divisor=0
        panic attempt to divide by zero
        checked_add stake=18446744073709551614 rhs=1
        ok result=18446744073709551615
        checked_add stake=18446744073709551615 rhs=1
        ok result=none

        # these wrap
        sub stake=2 rhs=3
        ok result=18446744073709551615
        mul stake=4294967297 rhs=4294967296
        ok result=4294967296
        sum stakes=18446744073709551615,3
        ok result=2
        sum stakes=-
        ok result=0
        ",
    );
}

#[test]
fn stakes_and_ids_are_written_in_digits() {
    check(
        "
        stake_fmt stake=0
        ok bytes=48
        index_fmt id=109
        ok bytes=49,48,57
        ",
    );
}
