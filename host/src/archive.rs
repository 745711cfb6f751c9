//! Whether the archive that is linked is the one that this crate declares: its version and the size of every struct that crosses, asked once.
#![allow(unsafe_code)]

use crate::abi::*;
use crate::limits::{COUPLINGS, DOFS, LINKS};
use std::sync::atomic::{AtomicU8, Ordering};

// SAFETY: numbers alone cross, and every archive that has these names has them so: they are asked before anything else of it is believed.
unsafe extern "C" {
    /// The version of what crosses, as the archive has it.
    #[must_use]
    #[link_name = "giellavor_version"]
    pub safe fn version() -> u32;

    /// The size in bytes of a struct, as the archive has it, by its place in [`abi`](crate::abi), from 0; past the last it is 0.
    #[must_use]
    #[link_name = "giellavor_size"]
    pub safe fn size(place: u32) -> u32;
}

/// The version of what crosses: that of `crates/sizes`.
const VERSION: u32 = 2;

/// In the order of `abi`.
const SIZES: [usize; 21] = [
    size_of::<Rotation>(),
    size_of::<Point>(),
    size_of::<Pose>(),
    size_of::<Joint>(),
    size_of::<Spring>(),
    size_of::<Link>(),
    size_of::<Coupling>(),
    size_of::<Row>(),
    size_of::<Arm>(),
    size_of::<NewLink>(),
    size_of::<NewCoupling>(),
    size_of::<Limits>(),
    size_of::<Force>(),
    size_of::<Edited>(),
    size_of::<Rotated>(),
    size_of::<Counted>(),
    size_of::<RowPart>(),
    size_of::<SpringAnswer>(),
    size_of::<AxesAnswer>(),
    size_of::<ConstraintRow>(),
    size_of::<Sums>(),
];

const UNASKED: u8 = 0;
const FITS: u8 = 1;
const DIFFERS: u8 = 2;

/// Two threads that ask at once are told the same.
static KNOWN: AtomicU8 = AtomicU8::new(UNASKED);

/// Whether its functions may be run.
#[inline]
pub(crate) fn fits() -> bool {
    match KNOWN.load(Ordering::Relaxed) {
        UNASKED => ask(),
        known => known == FITS,
    }
}

#[cold]
fn ask() -> bool {
    let mut sizes = SIZES.into_iter().chain([0]).zip(0..);
    let fits = version() == VERSION && sizes.all(|(known, place)| size(place) as usize == known);
    KNOWN.store(if fits { FITS } else { DIFFERS }, Ordering::Relaxed);
    fits
}

// ---- What a call answers where they may not

/// The number of that refusal.
pub(crate) const WRONG: u8 = 255;

/// That refusal, and zeros.
pub(crate) trait Answer {
    const WRONG: Self;
}

const POINT: Point = Point { x: 0.0, y: 0.0 };
const ROTATION: Rotation = Rotation { re: 0.0, im: 0.0 };
const POSE: Pose = Pose {
    re: 0.0,
    im: 0.0,
    x: 0.0,
    y: 0.0,
};

const JOINT: Joint = Joint {
    locked: 0,
    limit: 0,
    motor: 0,
    frame1: POSE,
    frame2: POSE,
    coordinates: [0.0; 3],
    rotation: ROTATION,
    stiffness: [0.0; 3],
    rest: [0.0; 3],
};

const LINK: Link = Link {
    tag: 0,
    parent: 0,
    joint: JOINT,
    centre: POINT,
    world: POSE,
    shift02: POINT,
    shift23: POINT,
};

const COUPLING: Coupling = Coupling {
    link1: 0,
    axis1: 0,
    link2: 0,
    axis2: 0,
    coefficient: 0.0,
    offset: 0.0,
};

const ARM: Arm = Arm {
    link_count: 0,
    coupling_count: 0,
    links: [LINK; LINKS],
    couplings: [COUPLING; COUPLINGS],
    rows: [Row { entries: [0.0; DOFS] }; 5],
};

impl Answer for Edited {
    const WRONG: Edited = Edited {
        arm: ARM,
        refusal: WRONG,
    };
}

impl Answer for Rotated {
    const WRONG: Rotated = Rotated {
        refusal: WRONG,
        rotation: ROTATION,
    };
}

impl Answer for Counted {
    const WRONG: Counted = Counted {
        refusal: WRONG,
        count: 0,
    };
}

impl Answer for RowPart {
    const WRONG: RowPart = RowPart {
        refusal: WRONG,
        offset: 0,
        length: 0,
    };
}

impl Answer for SpringAnswer {
    const WRONG: SpringAnswer = SpringAnswer {
        refusal: WRONG,
        spring: Spring {
            stiffness: 0.0,
            rest: 0.0,
        },
    };
}

impl Answer for AxesAnswer {
    const WRONG: AxesAnswer = AxesAnswer {
        refusal: WRONG,
        axes: [0.0; 3],
    };
}

impl Answer for ConstraintRow {
    const WRONG: ConstraintRow = ConstraintRow {
        refusal: WRONG,
        lower: 0.0,
        upper: 0.0,
        rhs: 0.0,
        cfm_gain: 0.0,
        inv_lhs: 0.0,
    };
}

impl Answer for Sums {
    const WRONG: Sums = Sums {
        refusal: WRONG,
        j_wj: 0.0,
        j_velocities: 0.0,
    };
}

/// It has no place for a refusal; `bench/` alone asks for one.
#[cfg(feature = "timed")]
impl Answer for Pose {
    const WRONG: Pose = POSE;
}
