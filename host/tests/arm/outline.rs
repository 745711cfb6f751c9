//! What an arm prints of itself, and what is read of a link by its number and by its tag.

use crate::given::hinge;
use giellavor::{Arm, NewLink, Pose, Refusal, Tag, axis};

fn arm() -> Arm {
    let mut arm = hinge();
    arm.add_link(NewLink {
        frame1: Pose::at(0.5, 0.25),
        locked: 6,
        ..NewLink::fixed(12, 1)
    })
    .unwrap();
    arm.add_link(NewLink::fixed(13, 0)).unwrap();
    arm.move_coordinate(2, axis::X, 0.125).unwrap();
    arm
}

#[test]
fn the_outline_shows_the_tree() {
    assert_eq!(
        format!("{:?}", arm()),
        "arm of 4 links, 2 DoFs, 0 couplings\n  \
           0: tag 10, fixed, at (0, 0) turned (1, 0)\n    \
             1: tag 11, free angle 0, at (1, 0) turned (1, 0)\n      \
               2: tag 12, free x 0.125, at (1.625, 0.25) turned (1, 0)\n    \
             3: tag 13, fixed, at (0, 0) turned (1, 0)"
    );
    assert_eq!(format!("{:?}", Arm::new()), "arm of 0 links, 0 DoFs, 0 couplings");
}

#[test]
fn a_link_is_read_by_number_or_by_tag() {
    let arm = arm();
    let (by_number, by_tag) = (arm.link(2).unwrap(), arm.link(Tag(12)).unwrap());
    assert_eq!(by_number.number(), by_tag.number());
    assert_eq!(by_tag.pose(), Pose::at(1.625, 0.25));
    assert_eq!(by_tag.rows().count(), 3);
    assert_eq!(arm.link(4).err(), Some(Refusal::NoSuchLink));
    assert_eq!(arm.link(u32::MAX).err(), Some(Refusal::NoSuchLink));
    assert_eq!(arm.link(Tag(14)).err(), Some(Refusal::NoSuchLink));
}
