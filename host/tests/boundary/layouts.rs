//! Every struct of the boundary has its fields where the Rattle side has them: it makes the struct of its fields, all of them different, and Rust reads
//! it; and C's sizes and offsets, by the header, are Rust's.

use crate::source::{include, laid_out};
use giellavor::abi::*;
use giellavor::{COUPLINGS, DOFS, LINKS};
use std::env;
use std::hint::black_box;
use std::io::Write;
use std::mem::{offset_of, size_of};
use std::process::{Command, Stdio};

unsafe extern "C" {
    safe fn giellavor_layout_rotation(re: f32, im: f32) -> Rotation;
    safe fn giellavor_layout_point(x: f32, y: f32) -> Point;
    safe fn giellavor_layout_pose(re: f32, im: f32, x: f32, y: f32) -> Pose;
    safe fn giellavor_layout_joint(
        locked: u8,
        limit: u8,
        motor: u8,
        frame1: Pose,
        frame2: Pose,
        coordinates0: f32,
        coordinates1: f32,
        coordinates2: f32,
        rotation: Rotation,
        stiffness0: f32,
        stiffness1: f32,
        stiffness2: f32,
        rest0: f32,
        rest1: f32,
        rest2: f32,
    ) -> Joint;
    safe fn giellavor_layout_spring(stiffness: f32, rest: f32) -> Spring;
    safe fn giellavor_layout_link(
        tag: u32,
        parent: u8,
        joint: Joint,
        centre: Point,
        world: Pose,
        shift02: Point,
        shift23: Point,
    ) -> Link;
    safe fn giellavor_layout_coupling(
        link1: u8,
        axis1: u8,
        link2: u8,
        axis2: u8,
        coefficient: f32,
        offset: f32,
    ) -> Coupling;
    safe fn giellavor_layout_row(entry: f32) -> Row;
    safe fn giellavor_layout_arm(
        link_count: usize,
        coupling_count: usize,
        link: Link,
        coupling: Coupling,
        row: Row,
    ) -> Arm;
    safe fn giellavor_layout_new_link(
        tag: u32,
        parent: u32,
        locked: u32,
        limit: u32,
        motor: u32,
        frame1: Pose,
        frame2: Pose,
        centre: Point,
    ) -> NewLink;
    safe fn giellavor_layout_new_coupling(
        link1: u32,
        axis1: u32,
        link2: u32,
        axis2: u32,
        coefficient: f32,
        offset: f32,
    ) -> NewCoupling;
    safe fn giellavor_layout_limits(
        position: f32,
        min: f32,
        max: f32,
        dt: f32,
        erp_inv_dt: f32,
        cfm_coeff: f32,
    ) -> Limits;
    safe fn giellavor_layout_force(x: f32, y: f32, torque: f32) -> Force;
    safe fn giellavor_layout_edited(refusal: u8, arm: Arm) -> Edited;
    safe fn giellavor_layout_rotated(refusal: u8, rotation: Rotation) -> Rotated;
    safe fn giellavor_layout_counted(refusal: u8, count: usize) -> Counted;
    safe fn giellavor_layout_row_part(refusal: u8, offset: usize, length: usize) -> RowPart;
    safe fn giellavor_layout_spring_answer(refusal: u8, spring: Spring) -> SpringAnswer;
    safe fn giellavor_layout_axes_answer(refusal: u8, axes0: f32, axes1: f32, axes2: f32) -> AxesAnswer;
    safe fn giellavor_layout_constraint_row(
        refusal: u8,
        lower: f32,
        upper: f32,
        rhs: f32,
        cfm_gain: f32,
        inv_lhs: f32,
    ) -> ConstraintRow;
    safe fn giellavor_layout_sums(refusal: u8, j_wj: f32, j_velocities: f32) -> Sums;
}

// ---- Values of which no two fields are alike

const POSES: [Pose; 3] = [
    Pose {
        re: 1.0,
        im: 2.0,
        x: 3.0,
        y: 4.0,
    },
    Pose {
        re: 5.0,
        im: 6.0,
        x: 7.0,
        y: 8.0,
    },
    Pose {
        re: 9.0,
        im: 10.0,
        x: 11.0,
        y: 12.0,
    },
];
const POINTS: [Point; 3] = [
    Point { x: 13.0, y: 14.0 },
    Point { x: 15.0, y: 16.0 },
    Point { x: 17.0, y: 18.0 },
];
const ROTATION: Rotation = Rotation { re: 19.0, im: 20.0 };
const JOINT: Joint = Joint {
    locked: 21,
    limit: 22,
    motor: 23,
    frame1: POSES[0],
    frame2: POSES[1],
    coordinates: [24.0, 25.0, 26.0],
    rotation: ROTATION,
    stiffness: [27.0, 28.0, 29.0],
    rest: [30.0, 31.0, 32.0],
};
const LINK: Link = Link {
    tag: 0x0403_0201,
    parent: 33,
    joint: JOINT,
    centre: POINTS[0],
    world: POSES[2],
    shift02: POINTS[1],
    shift23: POINTS[2],
};
const COUPLING: Coupling = Coupling {
    link1: 34,
    axis1: 35,
    link2: 36,
    axis2: 37,
    coefficient: 38.0,
    offset: 39.0,
};
const ROW: Row = Row { entries: [40.0; DOFS] };
const ARM: Arm = Arm {
    link_count: 0x0C0B_0A09_0807_0605,
    coupling_count: 0x1413_1211_100F_0E0D,
    links: [LINK; LINKS],
    couplings: [COUPLING; COUPLINGS],
    rows: [ROW; 5],
};
const SPRING: Spring = Spring {
    stiffness: 41.0,
    rest: 42.0,
};

fn made_joint() -> Joint {
    let [c0, c1, c2] = JOINT.coordinates;
    let [s0, s1, s2] = JOINT.stiffness;
    let [r0, r1, r2] = JOINT.rest;
    giellavor_layout_joint(
        21, 22, 23, POSES[0], POSES[1], c0, c1, c2, ROTATION, s0, s1, s2, r0, r1, r2,
    )
}

fn made_link() -> Link {
    giellavor_layout_link(LINK.tag, LINK.parent, JOINT, POINTS[0], POSES[2], POINTS[1], POINTS[2])
}

#[test]
fn what_is_made_of_its_fields_has_them_in_their_places() {
    assert_eq!(giellavor_layout_rotation(19.0, 20.0), ROTATION);
    assert_eq!(giellavor_layout_point(13.0, 14.0), POINTS[0]);
    assert_eq!(giellavor_layout_pose(1.0, 2.0, 3.0, 4.0), POSES[0]);
    assert_eq!(made_joint(), JOINT);
    assert_eq!(giellavor_layout_spring(41.0, 42.0), SPRING);
    assert_eq!(made_link(), LINK);
    assert_eq!(giellavor_layout_coupling(34, 35, 36, 37, 38.0, 39.0), COUPLING);
    assert_eq!(giellavor_layout_row(40.0), ROW);
    assert_eq!(
        giellavor_layout_arm(ARM.link_count, ARM.coupling_count, LINK, COUPLING, ROW),
        ARM
    );
    assert_eq!(
        giellavor_layout_new_link(1 << 31, 2 << 24, 3 << 16, 4 << 8, 5, POSES[0], POSES[1], POINTS[0]),
        NewLink {
            tag: 1 << 31,
            parent: 2 << 24,
            locked: 3 << 16,
            limit: 4 << 8,
            motor: 5,
            frame1: POSES[0],
            frame2: POSES[1],
            centre: POINTS[0]
        }
    );
    assert_eq!(
        giellavor_layout_new_coupling(1 << 31, 2 << 24, 3 << 16, 4 << 8, 5.0, 6.0),
        NewCoupling {
            link1: 1 << 31,
            axis1: 2 << 24,
            link2: 3 << 16,
            axis2: 4 << 8,
            coefficient: 5.0,
            offset: 6.0
        }
    );
    assert_eq!(
        giellavor_layout_limits(1.0, 2.0, 3.0, 4.0, 5.0, 6.0),
        Limits {
            position: 1.0,
            min: 2.0,
            max: 3.0,
            dt: 4.0,
            erp_inv_dt: 5.0,
            cfm_coeff: 6.0
        }
    );
    assert_eq!(
        giellavor_layout_force(1.0, 2.0, 3.0),
        Force {
            x: 1.0,
            y: 2.0,
            torque: 3.0
        }
    );
}

#[test]
fn an_answer_made_of_its_fields_has_them_in_their_places() {
    assert_eq!(giellavor_layout_edited(200, ARM), Edited { refusal: 200, arm: ARM });
    assert_eq!(
        giellavor_layout_rotated(200, ROTATION),
        Rotated {
            refusal: 200,
            rotation: ROTATION
        }
    );
    assert_eq!(
        giellavor_layout_counted(200, usize::MAX - 1),
        Counted {
            refusal: 200,
            count: usize::MAX - 1
        }
    );
    assert_eq!(
        giellavor_layout_row_part(200, usize::MAX - 1, usize::MAX - 2),
        RowPart {
            refusal: 200,
            offset: usize::MAX - 1,
            length: usize::MAX - 2
        }
    );
    assert_eq!(
        giellavor_layout_spring_answer(200, SPRING),
        SpringAnswer {
            refusal: 200,
            spring: SPRING
        }
    );
    assert_eq!(
        giellavor_layout_axes_answer(200, 1.0, 2.0, 3.0),
        AxesAnswer {
            refusal: 200,
            axes: [1.0, 2.0, 3.0]
        }
    );
    assert_eq!(
        giellavor_layout_constraint_row(200, 1.0, 2.0, 3.0, 4.0, 5.0),
        ConstraintRow {
            refusal: 200,
            lower: 1.0,
            upper: 2.0,
            rhs: 3.0,
            cfm_gain: 4.0,
            inv_lhs: 5.0
        }
    );
    assert_eq!(
        giellavor_layout_sums(200, 1.0, 2.0),
        Sums {
            refusal: 200,
            j_wj: 1.0,
            j_velocities: 2.0
        }
    );
}

// ---- Sizes

const UNTOUCHED: u8 = 0xA5;

/// A place for a result, and bytes behind it.
#[repr(C)]
struct Guarded<T> {
    result: T,
    behind: [u8; 256],
}

/// Puts a result over another and says whether all past its size is as it was.
fn stays_within<T>(before: T, call: impl FnOnce() -> T) -> bool {
    let behind = [UNTOUCHED; 256];
    let mut place = black_box(Box::new(Guarded { result: before, behind }));
    place.result = call();
    black_box(place).behind == behind
}

#[test]
fn nothing_is_written_past_the_size_of_a_result() {
    let edited = Edited { arm: ARM, refusal: 1 };
    assert!(stays_within(LINK, made_link));
    assert!(stays_within(ROW, || giellavor_layout_row(1.0)));
    assert!(stays_within(ARM, || giellavor_layout_arm(1, 2, LINK, COUPLING, ROW)));
    assert!(stays_within(edited, || giellavor_layout_edited(2, ARM)));
    let part = giellavor_layout_row_part(1, 2, 3);
    assert!(stays_within(part, || giellavor_layout_row_part(4, 5, 6)));
    let row = giellavor_layout_constraint_row(1, 1.0, 2.0, 3.0, 4.0, 5.0);
    assert!(stays_within(row, || giellavor_layout_constraint_row(
        2, 6.0, 7.0, 8.0, 9.0, 10.0
    )));
}

/// A struct's name, its size, and its fields with their offsets.
type Layout = (&'static str, usize, Vec<(&'static str, usize)>);

macro_rules! layouts {
    ($($name:ident { $($field:ident),* })*) => {
        vec![$((
            stringify!($name),
            size_of::<$name>(),
            vec![$((stringify!($field), offset_of!($name, $field))),*],
        )),*]
    };
}

fn layouts() -> Vec<Layout> {
    layouts! {
        Rotation { re, im }
        Point { x, y }
        Pose { re, im, x, y }
        Joint { locked, limit, motor, frame1, frame2, coordinates, rotation, stiffness, rest }
        Spring { stiffness, rest }
        Link { tag, parent, joint, centre, world, shift02, shift23 }
        Coupling { link1, axis1, link2, axis2, coefficient, offset }
        Row { entries }
        Arm { link_count, coupling_count, links, couplings, rows }
        NewLink { tag, parent, locked, limit, motor, frame1, frame2, centre }
        NewCoupling { link1, axis1, link2, axis2, coefficient, offset }
        Limits { position, min, max, dt, erp_inv_dt, cfm_coeff }
        Force { x, y, torque }
        Edited { arm, refusal }
        Rotated { refusal, rotation }
        Counted { refusal, count }
        RowPart { refusal, offset, length }
        SpringAnswer { refusal, spring }
        AxesAnswer { refusal, axes }
        ConstraintRow { refusal, lower, upper, rhs, cfm_gain, inv_lhs }
        Sums { refusal, j_wj, j_velocities }
    }
}

/// Every struct and field of the source stands in the list above.
#[test]
fn no_struct_is_left_out() {
    let listed = layouts().into_iter().map(|(name, _, fields)| {
        let names = fields.iter().map(|(field, _)| field.to_string());
        (name.to_string(), names.collect::<Vec<_>>())
    });
    let source = laid_out().into_iter().map(|(name, fields)| {
        let names = fields.iter().map(|field| field.split(':').next().unwrap().to_string());
        (name, names.collect::<Vec<_>>())
    });
    assert_eq!(listed.collect::<std::collections::BTreeMap<_, _>>(), source.collect());
}

/// A C compiler, given the header, finds the same sizes and offsets.
#[test]
fn c_has_the_same_sizes_and_offsets() {
    let mut text = String::from("#include \"giellavor.h\"\n");
    for (name, size, fields) in layouts() {
        text += &format!("_Static_assert(sizeof(Giellavor{name}) == {size}, \"{name}\");\n");
        for (field, at) in fields {
            text += &format!("_Static_assert(offsetof(Giellavor{name}, {field}) == {at}, \"{name}.{field}\");\n");
        }
    }
    let mut compiler = Command::new(env::var_os("CC").unwrap_or("cc".into()))
        .args([
            "-std=c11",
            "-Wall",
            "-Wextra",
            "-Werror",
            "-fsyntax-only",
            "-x",
            "c",
            "-I",
        ])
        .arg(include())
        .arg("-")
        .stdin(Stdio::piped())
        .spawn()
        .unwrap();
    compiler.stdin.take().unwrap().write_all(text.as_bytes()).unwrap();
    assert!(compiler.wait().unwrap().success());
}
