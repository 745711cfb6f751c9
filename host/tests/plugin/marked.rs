//! The marked examples P1 to P9 of document 01, through the safe functions.

use giellavor::split::{Place, places};
use giellavor::{Refusal, masks, split};

const A: [u8; 6] = [0, 0, 1, 1, 0, 3];

const GONE: Option<Place> = None;

fn at(part: usize, number: u32) -> Option<Place> {
    Some(Place { part, number })
}

fn deleted(parents: &[u8], link: u32) -> (usize, Vec<Option<Place>>) {
    let mut map = vec![0; 2 * parents.len()];
    let parts = split::delete(parents, link, &mut map).unwrap();
    (parts, places(&map).collect())
}

fn cut(parents: &[u8], link: u32) -> (usize, Vec<Option<Place>>) {
    let mut map = vec![0; 2 * parents.len()];
    let parts = split::cut(parents, link, &mut map).unwrap();
    (parts, places(&map).collect())
}

#[test]
fn p1_delete_1() {
    assert_eq!(
        deleted(&A, 1),
        (3, vec![at(0, 0), GONE, at(1, 0), at(2, 0), at(0, 1), at(2, 1)])
    );
}

#[test]
fn p2_cut_1() {
    assert_eq!(
        cut(&A, 1),
        (2, vec![at(0, 0), at(1, 0), at(1, 1), at(1, 2), at(0, 1), at(1, 3)])
    );
}

#[test]
fn p3_delete_0() {
    assert_eq!(
        deleted(&A, 0),
        (2, vec![GONE, at(0, 0), at(0, 1), at(0, 2), at(1, 0), at(0, 3)])
    );
}

#[test]
fn p4_delete_5() {
    assert_eq!(
        deleted(&A, 5),
        (1, vec![at(0, 0), at(0, 1), at(0, 2), at(0, 3), at(0, 4), GONE])
    );
}

#[test]
fn p5_cut_0() {
    assert_eq!(cut(&A, 0), (1, (0..6).map(|number| at(0, number)).collect()));
}

#[test]
fn p6_the_last_link_deleted() {
    assert_eq!(deleted(&[0], 0), (0, vec![GONE]));
}

#[test]
fn p7_starts() {
    let mut starts = [9; 4];
    assert_eq!(masks::starts(&[7, 3, 3, 0], &mut starts), Ok(5));
    assert_eq!(starts, [0, 0, 1, 2]);
}

#[test]
fn p8_default_damping() {
    let mut damping = [9; 12];
    assert_eq!(masks::default_damping(0, &mut damping), Ok(3));
    assert_eq!(
        masks::floats(&damping).map(f32::to_bits).collect::<Vec<_>>(),
        [0, 0, 0.1f32.to_bits()]
    );
}

#[test]
fn p9_constraints() {
    assert_eq!(masks::num_velocity_constraints(3, 7, 4), Ok(2));
}

#[test]
fn an_empty_list_has_no_link() {
    assert_eq!(split::delete(&[], 0, &mut []), Err(Refusal::NoSuchLink));
    assert_eq!(split::cut(&[], 0, &mut []), Err(Refusal::NoSuchLink));
}

#[test]
fn a_number_too_large_for_a_byte_is_not_cut() {
    assert_eq!(split::delete(&A, 256, &mut [0; 12]), Err(Refusal::NoSuchLink));
    assert_eq!(masks::dof_count(256), Err(Refusal::BadMask));
    assert_eq!(masks::num_velocity_constraints(256, 0, 0), Err(Refusal::BadMask));
}

#[test]
fn a_17th_link_is_too_many() {
    let mut map = [7; 34];
    assert_eq!(split::delete(&[0; 16], 0, &mut map), Ok(15));
    assert_eq!(map[32..], [7, 7]);
    map = [7; 34];
    assert_eq!(split::delete(&[0; 17], 0, &mut map), Err(Refusal::TooMany));
    assert_eq!(split::delete(&[0; 17], 0, &mut map[..33]), Err(Refusal::ShortMemory));
    assert_eq!(map, [7; 34]);
}
