//! The marked examples of document 01.

mod common;
use common::last;
use plain::Refusal;
use plain::split::{Split, split_map};

/// Links with these parents, the root fixed, the others free to turn.
fn arm_of(parents: &[u8]) -> String {
    let link = |(i, parent)| {
        let mask = if i == 0 { 7 } else { 3 };
        format!("link {i} {parent} {mask} 0 0 1 0 0 0 1 0 0 0 0 0\n")
    };
    parents.iter().enumerate().map(link).collect()
}

const A: [u8; 6] = [0, 0, 1, 1, 0, 3];

#[test]
fn p1_to_p6_splits() {
    for (name, parents, split, expected) in [
        ("P1", &A[..], "delete 1", "split 3 0/0 255/255 1/0 2/0 0/1 2/1"),
        ("P2", &A, "cut 1", "split 2 0/0 1/0 1/1 1/2 0/1 1/3"),
        ("P3", &A, "delete 0", "split 2 255/255 0/0 0/1 0/2 1/0 0/3"),
        ("P4", &A, "delete 5", "split 1 0/0 0/1 0/2 0/3 0/4 255/255"),
        ("P5", &A, "cut 0", "split 1 0/0 0/1 0/2 0/3 0/4 0/5"),
        ("P6", &[0], "delete 0", "split 0 255/255"),
    ] {
        assert_eq!(
            last(&format!("{}split {split}", arm_of(parents))),
            format!("ok\n{expected}"),
            "{name}"
        );
        assert_eq!(split_of(parents, split), expected, "{name}, over the bare list");
    }
}

/// A split of a bare list, in the script's words.
fn split_of(parents: &[u8], split: &str) -> String {
    let (how, link) = match split.split_once(' ') {
        Some(("delete", link)) => (Split::Delete, link),
        Some((_, link)) => (Split::Cut, link),
        None => panic!("{split}"),
    };
    let mut map = [0; 32];
    let parts = split_map(parents, how, link.parse().unwrap(), &mut map).unwrap();
    let places = map.chunks(2).take(parents.len());
    places.fold(format!("split {parts}"), |text, place| {
        format!("{text} {}/{}", place[0], place[1])
    })
}

#[test]
fn a_split_of_a_bare_list_is_refused_by_the_lowest_number() {
    let refused = |parents: &[u8], link, room| split_map(parents, Split::Cut, link, &mut [0; 40][..room]).err();
    assert_eq!(refused(&A, 1, 12), None);
    assert_eq!(refused(&A, 6, 12), Some(Refusal::Number));
    assert_eq!(refused(&[0, 1], 0, 4), Some(Refusal::Number));
    assert_eq!(refused(&[1], 0, 2), Some(Refusal::Number));
    assert_eq!(refused(&[0; 17], 20, 34), Some(Refusal::Full));
    assert_eq!(refused(&[0; 17], 20, 33), Some(Refusal::Short));
}

#[test]
fn p7_to_p9_masks() {
    assert_eq!(last("starts 7 3 3 0"), "ok\nstarts 0 0 1 2 total 5", "P7");
    assert_eq!(
        last("masks 0 0 0"),
        "ok\nmasks dofs 3 constraints 0 damping 00000000 00000000 3dcccccd",
        "P8"
    );
    assert_eq!(
        last("masks 3 7 4"),
        "ok\nmasks dofs 1 constraints 2 damping 3dcccccd",
        "P9"
    );
}

#[test]
fn p10_and_p11_limits() {
    let arm = format!("{}mass 1 1\n", arm_of(&[0, 0]));
    let rest = "cfm_gain 00000000 inv_lhs 3f800000 j 3f800000 wj 3f800000";
    for (name, pos, bounds, rhs) in [
        ("P10", 2, "80000000 7f7fffff", "41200000"),
        ("P11", 1, "80000000 00000000", "00000000"),
    ] {
        let answer = last(&format!("{arm}limit 1 2 {pos} 0 1 0 10 0"));
        assert_eq!(answer, format!("ok\nlimit bounds {bounds} rhs {rhs} {rest}"), "{name}");
    }
    let below = last(&format!("{arm}limit 1 2 -1 0 1 0 10 0"));
    assert_eq!(below, format!("ok\nlimit bounds ff7fffff 00000000 rhs c1200000 {rest}"));
}

#[test]
fn also_to_be_run() {
    assert!(last("rot 256").starts_with("ok"));
    assert_eq!(last("rot x43800001"), "refused 9");
    let full = arm_of(&[0; 16]);
    assert_eq!(last(&full), "ok");
    assert_eq!(last(&format!("{full}link 99 0 7 0 0 1 0 0 0 1 0 0 0 0 0")), "refused 2");
    assert_eq!(last(&format!("{}branch 2", arm_of(&[0, 0]))), "refused 4");
    assert_eq!(
        last(&format!("{}short_rows 1\nview vel 1", arm_of(&[0, 0]))),
        "ok\nview 00000000"
    );
    assert_eq!(
        last(&format!("{}short_rows 0\nview vel 1", arm_of(&[0, 0]))),
        "refused 1"
    );
}
