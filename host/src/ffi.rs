//! Every exported function as a safe one, over lent slices and an arm that is lent or edited in its place: what [`Arm`](crate::Arm) stands on, and for
//! a plug-in that keeps its memory itself. `tests/boundary` holds the declarations against the Rattle source.
//!
//! Any value of any argument gets an answer. A refusal has a number, [`Refusal::number`](crate::Refusal::number), and then nothing that was lent has
//! changed: it is the answer's field `refusal`, 0 for none, and what stands beside it is zeros where refused, or the empty arm where an arm is made
//! ([`empty`], the parts). What edits an [`Edited`] puts the answer in its place and returns its refusal: a refused one leaves the arm as it was.
//!
//! An arm's picture is its poses, shifts and tables. It stays fresh where an arm from [`empty`], or from a part of a split, and the tables that it was worked
//! out into go through these functions together. Whoever writes either by hand, or hands in other tables, calls [`full_working`] first.
//!
//! Before the first call the archive is asked for its version and the size of every struct. Where these aren't this crate's, no function of it is run:
//! every call is refused by 255, and answers zeros beside that; an arm that is edited stays.
#![allow(unsafe_code)]
#![allow(clippy::too_many_arguments)]

use crate::abi::*;
use crate::archive::{self, Answer};

pub use crate::archive::{size, version};

// An object file of the archives is of this kind alone. Clippy and rustdoc link nothing.
#[cfg(not(any(
    all(target_arch = "x86_64", target_os = "linux", target_pointer_width = "64"),
    clippy,
    doc
)))]
compile_error!(
    "the proved archives are for x86-64 Linux alone: build for the target x86_64-unknown-linux-gnu. \
     On another Linux machine `eval \"$(tools/cross)\"`, at the root of the repository, sets cargo up to do so and to run the result under an emulator."
);

/// Safe functions over the exported ones, whose names begin with `giellavor_`. A slice crosses as a pointer and a count, an arm by value. What is
/// declared with `edited: &mut Edited` takes an arm and returns an `Edited`.
macro_rules! exported {
    ($($(#[$note:meta])* fn $name:ident($($parameters:tt)*) $(-> $result:ty)?;)*) => {
        $(exported!(@ [$(#[$note])*] $name [$($result)?] [] [] [] $($parameters)*,);)*
    };
    // Parameter by parameter: what Rust is given, what crosses, and of which value.
    (@ $notes:tt $name:ident [] [] [] [] $p:ident: &mut Edited, $($rest:tt)*) => {
        exported!(@ $notes $name [] [$p: &mut Edited,] [_: Arm,] [$p.arm,] $($rest)*);
    };
    (@ $notes:tt $name:ident $result:tt [$($given:tt)*] [$($crosses:tt)*] [$($value:tt)*] $p:ident: &Arm, $($rest:tt)*) => {
        exported!(@ $notes $name $result [$($given)* $p: &Arm,] [$($crosses)* _: Arm,] [$($value)* *$p,] $($rest)*);
    };
    (@ $notes:tt $name:ident $result:tt [$($given:tt)*] [$($crosses:tt)*] [$($value:tt)*] $p:ident: &[$of:ty], $($rest:tt)*) => {
        exported!(@ $notes $name $result [$($given)* $p: &[$of],] [$($crosses)* _: *const $of, _: usize,] [$($value)* $p.as_ptr(), $p.len(),] $($rest)*);
    };
    (@ $notes:tt $name:ident $result:tt [$($given:tt)*] [$($crosses:tt)*] [$($value:tt)*] $p:ident: &mut [$of:ty], $($rest:tt)*) => {
        exported!(@ $notes $name $result [$($given)* $p: &mut [$of],] [$($crosses)* _: *mut $of, _: usize,] [$($value)* $p.as_mut_ptr(), $p.len(),] $($rest)*);
    };
    (@ $notes:tt $name:ident $result:tt [$($given:tt)*] [$($crosses:tt)*] [$($value:tt)*] $p:ident: $of:ty, $($rest:tt)*) => {
        exported!(@ $notes $name $result [$($given)* $p: $of,] [$($crosses)* _: $of,] [$($value)* $p,] $($rest)*);
    };
    (@ [$($note:tt)*] $name:ident [] [$edited:ident: &mut Edited, $($given:tt)*] $crosses:tt $value:tt) => {
        $($note)*
        #[must_use = "the number of a refusal, or 0"]
        pub fn $name($edited: &mut Edited, $($given)*) -> u8 {
            if archive::fits() {
                *$edited = exported!(@ $name $crosses Edited, $value);
            } else {
                $edited.refusal = archive::WRONG;
            }
            $edited.refusal
        }
    };
    (@ [$($note:tt)*] $name:ident [$result:ty] [$($given:tt)*] $crosses:tt $value:tt) => {
        $($note)*
        #[must_use = "it may be a refusal"]
        pub fn $name($($given)*) -> $result {
            if archive::fits() {
                exported!(@ $name $crosses $result, $value)
            } else {
                <$result>::WRONG
            }
        }
    };
    // The call itself, of an archive that fits.
    (@ $name:ident [$($crosses:tt)*] $result:ty, [$($value:tt)*]) => {{
        unsafe extern "C" {
            #[link_name = concat!("giellavor_", stringify!($name))]
            fn exported($($crosses)*) -> $result;
        }
        // SAFETY: the declaration is that of the Rattle source (tests/boundary), and the archive is of its version, with structs of these sizes. A pointer
        // and a count are a slice's: as many values, aligned, that live through the call; nobody else writes them during it, nor reads what is lent
        // mutably, so that no two overlap where one is written. An empty slice's pointer dangles, but is aligned and not null, and by a count of 0 nothing
        // is read or written. The function keeps no pointer, and is proved to return, within the slices, for every value of every argument.
        unsafe { exported($($value)*) }
    }};
}

// ---- Splits and counts over bare lists

exported! {
    /// A link is deleted: part and new number of each old link, two bytes a link into `map`, 255 and 255 for the deleted one; returned is the part
    /// count. Refused: 1, 2, 4.
    fn split_delete(parents: &[u8], link: u32, map: &mut [u8]) -> Counted;

    /// A link's joint is cut: part and new number of each link, two bytes a link into `map`; returned is the part count. Refused: 1, 2, 4.
    fn split_cut(parents: &[u8], link: u32, map: &mut [u8]) -> Counted;

    /// The DoF count of a mask. Refused: 5.
    fn dof_count(mask: u32) -> Counted;

    /// The start of each mask of a list, a byte a mask into `starts`; returned is the total. Refused: 1, 2, 5.
    fn starts(masks: &[u8], starts: &mut [u8]) -> Counted;

    /// How many velocity constraints a joint makes. Refused: 5.
    fn num_velocity_constraints(locked: u32, limit: u32, motor: u32) -> Counted;

    /// The default damping of a mask, as f32 bits, lowest byte first, four bytes a DoF into `damping`; returned is the DoF count. Refused: 1, 5.
    fn default_damping(mask: u32, damping: &mut [u8]) -> Counted;
}

// ---- Numbers

exported! {
    /// The rotation of an angle. Refused: 7, 9.
    fn rotate(angle: f32) -> Rotated;

    /// The solve of an n by n matrix, in rows, against a right side; the solution goes into the first n floats of `result`, and n is returned. Refused: 1,
    /// 2, 7, 11, 12.
    fn solve(n: usize, matrix: &[f32], right: &[f32], result: &mut [f32]) -> Counted;
}

// ---- Making an arm

exported! {
    /// An arm of no links; its tables hold +0. Refused: 1.
    fn empty(tables: &mut [f32]) -> Edited;

    /// A link is added behind the last. Refused: 1 to 5, 7 to 9, 12.
    fn add_link(edited: &mut Edited, tables: &mut [f32], link: NewLink);

    /// A coupling is added behind the last. Refused: 2 to 5, 7, 9.
    fn add_coupling(edited: &mut Edited, coupling: NewCoupling);
}

// ---- Rows

exported! {
    /// The velocity of a free axis is set. Refused: 2 to 7, 9.
    fn write_velocity(edited: &mut Edited, link: u32, axis: u32, value: f32);

    /// The damping of a free axis is set. Refused: 2 to 7, 9.
    fn write_damping(edited: &mut Edited, link: u32, axis: u32, value: f32);

    /// The armature of a free axis is set. Refused: 2 to 7, 9.
    fn write_armature(edited: &mut Edited, link: u32, axis: u32, value: f32);

    /// The friction of a free axis is set. Refused: 2 to 7, 9.
    fn write_friction(edited: &mut Edited, link: u32, axis: u32, value: f32);

    /// The acceleration of a free axis is set. Refused: 2 to 7, 9.
    fn write_acceleration(edited: &mut Edited, link: u32, axis: u32, value: f32);
}

// ---- Joints

exported! {
    /// The spring of an axis is set, locked or not. Refused: 2 to 5, 7, 9.
    fn set_spring(edited: &mut Edited, link: u32, axis: u32, spring: Spring);
}

// ---- Moves: one link's inputs are set, and it and the links below it are worked out

exported! {
    /// A free coordinate is set; the link and those below it are worked out. Refused: 1 to 7, 9, 12.
    fn move_coordinate(edited: &mut Edited, tables: &mut [f32], link: u32, axis: u32, value: f32);

    /// Both frames are set; the link and those below it are worked out. Refused: 1 to 5, 7 to 9, 12.
    fn move_frames(edited: &mut Edited, tables: &mut [f32], link: u32, first: Pose, second: Pose);

    /// The centre of mass is set; the link and those below it are worked out. Refused: 1 to 5, 7, 9, 12.
    fn move_centre(edited: &mut Edited, tables: &mut [f32], link: u32, centre: Point);
}

// ---- The whole arm

exported! {
    /// Every link is worked out. Refused: 1 to 5, 7, 9, 12.
    fn full_working(edited: &mut Edited, tables: &mut [f32]);

    /// Every joint is integrated by dt, then every link is worked out. Refused: 1 to 5, 7, 9, 12.
    fn step(edited: &mut Edited, tables: &mut [f32], dt: f32);

    /// The root is free at a pose. Refused: 1 to 5, 7 to 9, 12.
    fn free_root(edited: &mut Edited, tables: &mut [f32], pose: Pose);

    /// The root is fixed at a pose. Refused: 1 to 5, 7 to 9, 12.
    fn fix_root(edited: &mut Edited, tables: &mut [f32], pose: Pose);
}

// ---- Parts: each of a split's is an arm, worked out into tables of its own

exported! {
    /// Part `number` after a link is deleted, worked out into tables of its own. Refused: 1 to 5, 7, 9, 12; then it is the empty arm.
    fn part_delete(arm: &Arm, link: u32, number: u32, tables: &mut [f32]) -> Edited;

    /// Part `number` after a link's joint is cut, worked out into tables of its own. Refused: 1 to 5, 7, 9, 12; then it is the empty arm.
    fn part_cut(arm: &Arm, link: u32, number: u32, tables: &mut [f32]) -> Edited;
}

// ---- Masks and bare lists

exported! {
    /// Is an axis of a mask free? The count is 1 or 0. Refused: 5.
    fn free_axis(mask: u32, axis: u32) -> Counted;

    /// The DoFs of a mask below an axis. Refused: 5.
    fn dof_count_below(mask: u32, axis: u32) -> Counted;

    /// The links from the root to a link of a list of parents, a byte each into `to`; returned is their count. Refused: 1, 2, 4.
    fn branch(parents: &[u8], link: u32, to: &mut [u8]) -> Counted;
}

// ---- Counts

exported! {
    /// The start of a link: how many DoFs stand before its own. Refused: 2 to 5, 7, 9.
    fn link_start(arm: &Arm, link: u32) -> Counted;

    /// The DoF count of an arm. Refused: 2 to 5, 7, 9.
    fn arm_dofs(arm: &Arm) -> Counted;
}

// ---- Joints

exported! {
    /// The spring of an axis, locked or not. Refused: 2 to 5, 7, 9.
    fn spring(arm: &Arm, link: u32, axis: u32) -> SpringAnswer;

    /// The accelerations of a link's joint, put on their axes; +0 on a locked one. `accelerations` begins with the link's own entries, one for each free
    /// axis: it is a row from the link's start on. Refused: 1 to 5, 7, 9.
    fn jacobian_mul_coordinates(arm: &Arm, link: u32, accelerations: &[f32]) -> AxesAnswer;
}

// ---- The tree

exported! {
    /// The links from the root to a link, a byte each into `to`; returned is their count. Refused: 1 to 5, 7, 9.
    fn kinematic_branch(arm: &Arm, link: u32, to: &mut [u8]) -> Counted;

    /// A link is deleted: part and new number of each link, two bytes a link into `map`, 255 and 255 for the deleted one; returned is the part count.
    /// Refused: 1 to 5, 7, 9.
    fn arm_split_delete(arm: &Arm, link: u32, map: &mut [u8]) -> Counted;

    /// A link's joint is cut: part and new number of each link, two bytes a link into `map`; returned is the part count. Refused: 1 to 5, 7, 9.
    fn arm_split_cut(arm: &Arm, link: u32, map: &mut [u8]) -> Counted;
}

// ---- Rows

exported! {
    /// Where a link's own part of the velocities stands. No lent float is read. Refused: 1 to 5, 7, 9.
    fn view_velocities(arm: &Arm, link: u32, velocities: &[f32], accelerations: &[f32]) -> RowPart;

    /// Where a link's own part of the accelerations stands. No lent float is read. Refused: 1 to 5, 7, 9.
    fn view_accelerations(arm: &Arm, link: u32, velocities: &[f32], accelerations: &[f32]) -> RowPart;
}

// ---- Constraint rows: the first n floats of `j` and of `wj` are written, n being the DoF count

exported! {
    /// The row of an axis' limit; the first n floats of `j` and of `wj` are written, n being the DoF count. Refused: 1 to 7, 9 to 12.
    fn limit_row(arm: &Arm, link: u32, axis: u32, given: Limits, mass: &[f32], j: &mut [f32], wj: &mut [f32]) -> ConstraintRow;

    /// The row of an axis' friction; the first n floats of `j` and of `wj` are written, n being the DoF count. Refused: 1 to 7, 9 to 12.
    fn friction_row(arm: &Arm, link: u32, axis: u32, dt: f32, cfm_coeff: f32, mass: &[f32], j: &mut [f32], wj: &mut [f32]) -> ConstraintRow;

    /// What a force on a link does along each DoF, into `j`, its solve by the mass matrix, into `wj`, and their sums. Refused: 1 to 5, 7, 9, 11, 12.
    fn fill_jacobians(arm: &Arm, link: u32, force: Force, tables: &[f32], mass: &[f32], j: &mut [f32], wj: &mut [f32]) -> Sums;
}

/// What `bench/` times beside the calls: an arm that crosses and does nothing else, and a pose product. They stand in archives of their own, which the
/// build script makes of the same sources.
#[cfg(feature = "timed")]
#[doc(hidden)]
pub mod timed {
    use super::*;

    exported! {
        /// An arm and a refusal, as they are given.
        fn layout_edited(refusal: u8, arm: &Arm) -> Edited;

        /// Pose b, then pose a.
        fn timed_product(a: Pose, b: Pose) -> Pose;
    }
}
