//! Links named by tag, in every method that names one: the same as by number, and refused by 4 where the tag is gone, unless a lower refusal applies.

use crate::given::{FORCE, LIMITS, SPRING};
use crate::memory::{ORIGIN, same};
use giellavor::{
    Arm, COUPLINGS, LINKS, Lent, NewCoupling, NewLink, Pose, Refusal, Role, RowName, Split, Spring, Tag, Which, axis,
};

/// The tags of a fixed root, a free link on it, and on that a hinged and a free one. No number is a tag.
const TAGS: [Tag; 4] = [Tag(100), Tag(70), Tag(90), Tag(80)];
const GONE: Tag = Tag(60);

fn arm() -> Arm {
    let mut arm = Arm::new();
    let [root, free, hinged, last] = TAGS;
    arm.add_link(NewLink::fixed(root, 0)).unwrap();
    arm.add_link(NewLink::free(free, root)).unwrap();
    arm.add_link(NewLink {
        frame1: Pose::at(1.0, 0.5),
        ..NewLink::hinged(hinged, free)
    })
    .unwrap();
    arm.add_link(NewLink::free(last, free)).unwrap();
    for (entry, axis) in [(0.25, axis::X), (0.5, axis::Y), (0.75, axis::ANGLE)] {
        arm.write_row(RowName::Frictions, last, axis, entry).unwrap();
    }
    arm
}

fn lend<T>(n: usize, call: impl FnOnce(Lent) -> T) -> T {
    let mut mass = vec![0.0; n * n];
    mass.iter_mut().step_by(n + 1).for_each(|entry| *entry = 2.0);
    let (mut j, mut wj) = (vec![0.0; n], vec![0.0; n]);
    call(Lent {
        mass: &mass,
        j: &mut j,
        wj: &mut wj,
    })
}

type Method = fn(&mut Arm, Which) -> Result<String, Refusal>;

/// What a method answers, as a text.
fn said<T: std::fmt::Debug>(answer: Result<T, Refusal>) -> Result<String, Refusal> {
    answer.map(|answer| format!("{answer:?}"))
}

/// Every method that names a link. Each is done for the last link of [`arm`], and leaves it there unless it is a split.
const METHODS: [(&str, Method); 20] = [
    ("add_link", |arm, link| said(arm.add_link(NewLink::free(110, link)))),
    ("add_coupling, link 1", |arm, link| {
        said(arm.add_coupling(NewCoupling::between(link, axis::X, TAGS[0], axis::Y)))
    }),
    ("add_coupling, link 2", |arm, link| {
        said(arm.add_coupling(NewCoupling::between(0, axis::X, link, axis::Y)))
    }),
    ("write_row", |arm, link| {
        let rows = RowName::ALL.map(|row| arm.write_row(row, link, axis::Y, 0.125));
        said(rows.into_iter().collect::<Result<(), Refusal>>())
    }),
    ("set_spring", |arm, link| said(arm.set_spring(link, axis::X, SPRING))),
    ("move_coordinate", |arm, link| {
        said(arm.move_coordinate(link, axis::ANGLE, 0.5))
    }),
    ("move_frames", |arm, link| {
        said(arm.move_frames(link, Pose::at(0.5, 0.25), Pose::at(0.0, 1.0)))
    }),
    ("move_centre", |arm, link| {
        said(arm.move_centre(link, Pose::at(0.5, 0.25).translation()))
    }),
    ("split_map, delete", |arm, link| {
        said(arm.split_map(Split::delete(link)))
    }),
    ("split_map, cut", |arm, link| said(arm.split_map(Split::cut(link)))),
    ("part", |arm, link| {
        arm.part(Split::delete(link), 0).map(|part| {
            *arm = part;
            String::new()
        })
    }),
    ("parts", |arm, link| said(arm.parts(Split::cut(link)))),
    ("link", |arm, link| said(arm.link(link))),
    ("link_start", |arm, link| said(arm.link_start(link))),
    ("row_view", |arm, link| {
        let row: Vec<f32> = (0..7).map(|x| x as f32).collect();
        let view = |role| arm.row_view(role, link, &row, &row[..]).map(<[f32]>::to_vec);
        said(
            [Role::Velocities, Role::Accelerations]
                .map(view)
                .into_iter()
                .collect::<Result<Vec<_>, _>>(),
        )
    }),
    ("kinematic_branch", |arm, link| said(arm.kinematic_branch(link))),
    ("spring", |arm, link| said(arm.spring(link, axis::X))),
    ("jacobian_mul_coordinates", |arm, link| {
        said(arm.jacobian_mul_coordinates(link, &[1.0, 2.0, 3.0]))
    }),
    ("limit_row and friction_row", |arm, link| {
        let limit = lend(7, |lent| arm.limit_row(link, axis::Y, LIMITS, lent));
        let friction = lend(7, |lent| arm.friction_row(link, axis::Y, 0.1, 0.5, lent));
        assert_eq!(limit.err(), friction.err());
        said(limit.and_then(|limit| Ok((limit, friction?))))
    }),
    ("fill_jacobians", |arm, link| {
        said(lend(7, |lent| arm.fill_jacobians(link, FORCE, lent)))
    }),
];

#[test]
fn a_tag_names_the_link_that_its_number_names() {
    for (name, method) in METHODS {
        for (number, tag) in (0..).zip(TAGS) {
            let (mut by_number, mut by_tag) = (arm(), arm());
            let answers = [method(&mut by_number, number.into()), method(&mut by_tag, tag.into())];
            assert_eq!(answers[0], answers[1], "{name} of {tag}");
            assert_eq!(by_number, by_tag, "{name} of {tag}");
            assert!(same(by_number.tables(), by_tag.tables()), "{name} of {tag}");
            assert!(number < 3 || answers[1].is_ok(), "{name}: {answers:?}");
        }
    }
}

#[test]
fn a_tag_that_is_gone_is_refused_by_4_and_changes_nothing() {
    for (name, method) in METHODS {
        for arm in [arm(), Arm::new()] {
            let mut after = arm.clone();
            assert_eq!(method(&mut after, GONE.into()), Err(Refusal::NoSuchLink), "{name}");
            assert!(after == arm && same(after.tables(), arm.tables()), "{name}");
        }
    }
}

/// The tag was there, and its link was deleted: the other links are where they were told to be.
#[test]
fn a_deleted_link_is_not_named_again() {
    let mut arm = arm();
    arm = arm.part(Split::delete(TAGS[3]), 0).unwrap();
    assert_eq!(arm.part(Split::delete(TAGS[3]), 0).err(), Some(Refusal::NoSuchLink));
    for (_, method) in METHODS {
        assert_eq!(
            method(&mut arm.clone(), TAGS[3].into()).err(),
            Some(Refusal::NoSuchLink)
        );
    }
    // Given to a new link, it names that one.
    let number = arm.add_link(NewLink::hinged(TAGS[3], TAGS[0])).unwrap();
    assert_eq!(arm.link(TAGS[3]).unwrap().number(), number);
}

/// A link in the middle is deleted, and then deleted again.
#[test]
fn an_old_number_names_the_wrong_link() {
    let mut arm = Arm::new();
    for tag in [10, 11, 12] {
        arm.add_link(NewLink::fixed(tag, 0)).unwrap();
    }
    let arm = arm.part(Split::delete(1), 0).unwrap();
    let tags = |arm: &Arm| arm.links().map(|link| link.tag().0).collect::<Vec<_>>();
    assert_eq!(tags(&arm), [10, 12]);
    assert_eq!(tags(&arm.part(Split::delete(1), 0).unwrap()), [10]);
    assert_eq!(arm.part(Split::delete(Tag(11)), 0).err(), Some(Refusal::NoSuchLink));
    assert_eq!(arm.part(Split::delete(2), 0).err(), Some(Refusal::NoSuchLink));
}

#[test]
fn a_lower_refusal_is_given_before_that_of_a_tag() {
    let mut arm = arm();
    // 3: the new link's own tag is taken.
    assert_eq!(arm.add_link(NewLink::fixed(TAGS[2], GONE)), Err(Refusal::TagTaken));
    // 1: memory is too short.
    let seven = [0.0; 7];
    let short = arm.row_view(Role::Velocities, GONE, &seven[..6], &seven);
    assert_eq!(short, Err(Refusal::ShortMemory));
    let rows: [fn(&Arm, Lent) -> Option<Refusal>; 3] = [
        |arm, lent| arm.limit_row(GONE, axis::Y, LIMITS, lent).err(),
        |arm, lent| arm.friction_row(GONE, axis::Y, 0.1, 0.5, lent).err(),
        |arm, lent| arm.fill_jacobians(GONE, FORCE, lent).err(),
    ];
    for row in rows {
        assert_eq!(lend(6, |lent| row(&arm, lent)), Some(Refusal::ShortMemory));
    }
    // 2: the list is full.
    let coupling = NewCoupling::between(GONE, axis::X, GONE, axis::X);
    (0..COUPLINGS).for_each(|_| arm.add_coupling(NewCoupling::between(0, 0, 1, 0)).unwrap());
    assert_eq!(arm.add_coupling(coupling), Err(Refusal::TooMany));
    (4..LINKS as u32).for_each(|tag| {
        arm.add_link(NewLink::fixed(tag, TAGS[0])).unwrap();
    });
    assert_eq!(arm.add_link(NewLink::fixed(TAGS[2], GONE)), Err(Refusal::TooMany));
}

#[test]
fn a_higher_refusal_is_not() {
    let mut arm = arm();
    let nan = f32::NAN;
    let nowhere = Pose::at(nan, 0.0);
    let link = NewLink {
        locked: 8,
        frame1: nowhere,
        ..NewLink::fixed(110, GONE)
    };
    let coupling = NewCoupling {
        coefficient: nan,
        ..NewCoupling::between(GONE, 3, 0, 3)
    };
    let refusals = [
        arm.add_link(link).err(),
        arm.add_coupling(coupling).err(),
        arm.write_row(RowName::Damping, GONE, 3, nan).err(),
        arm.set_spring(GONE, 3, Spring { rest: nan, ..SPRING }).err(),
        arm.move_coordinate(GONE, 3, nan).err(),
        arm.move_frames(GONE, nowhere, nowhere).err(),
        arm.move_centre(GONE, nowhere.translation()).err(),
        arm.part(Split::cut(GONE), usize::MAX).err(),
        arm.spring(GONE, 3).err(),
        arm.jacobian_mul_coordinates(GONE, &[nan; 3]).err(),
    ];
    assert_eq!(refusals, [Some(Refusal::NoSuchLink); 10]);
    assert_eq!(arm, self::arm());
}

#[test]
fn a_first_link_has_no_parent_to_name() {
    let mut arm = Arm::new();
    assert_eq!(arm.add_link(NewLink::fixed(10, Tag(10))), Err(Refusal::NoSuchLink));
    assert_eq!(arm.add_link(NewLink::fixed(10, 0)), Ok(0));
    assert_eq!(arm.add_link(NewLink::fixed(11, Tag(10))), Ok(1));
    assert_eq!(arm.move_centre(Tag(11), ORIGIN), Ok(()));
}

/// Every number may be a tag, the greatest too.
#[test]
fn any_number_may_be_a_tag() {
    let mut arm = Arm::new();
    for (number, tag) in (0..).zip([u32::MAX, 1, 0]) {
        assert_eq!(arm.link(Tag(tag)).err(), Some(Refusal::NoSuchLink));
        arm.add_link(NewLink::fixed(tag, 0)).unwrap();
        assert_eq!(arm.link(Tag(tag)).map(|link| link.number()), Ok(number));
    }
    assert_eq!(arm.link(u32::MAX).err(), Some(Refusal::NoSuchLink));
}

#[test]
fn names_are_told() {
    assert_eq!(Which::from(3).to_string(), "link 3");
    assert_eq!(Which::from(Tag(12)).to_string(), "the link tagged 12");
    assert_eq!((Tag::from(12), u32::from(Tag(12))), (Tag(12), 12));
}

/// A part by its number, of which a split has few.
#[test]
fn a_part_that_is_not_there_is_refused() {
    let arm = arm();
    let split = Split::delete(TAGS[1]);
    let (count, places) = arm.split_map(split).unwrap();
    assert_eq!(count, 3);
    for (link, place) in arm.links().zip(places) {
        let Some(place) = place else { continue };
        let part = arm.part(split, place.part).unwrap();
        assert_eq!(part.link(place.number).unwrap().tag(), link.tag());
        assert_eq!(part.link(link.tag()).unwrap().number(), place.number);
    }
    for number in [3, 256, 1 << 32, usize::MAX] {
        assert_eq!(arm.part(split, number).err(), Some(Refusal::NoSuchLink));
    }
}
