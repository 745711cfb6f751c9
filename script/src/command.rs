//! A line read as a command.

use crate::limits::{AXES, COUPLINGS, DOFS, LENT, LINKS};
use crate::terms::{Limit, NewCoupling, NewLink, Pose, Role, RootType, RowName, Split};
use crate::words::{MOST_LINE, Words, float, number};

#[derive(Clone, Debug)]
pub enum Command {
    New,
    Empty,
    Full,
    Link(NewLink),
    Row {
        row: RowName,
        link: u32,
        axis: u32,
        value: f32,
    },
    Coord {
        link: u32,
        axis: u32,
        value: f32,
    },
    Frames {
        link: u32,
        frame1: Pose,
        frame2: Pose,
    },
    Com {
        link: u32,
        com: [f32; 2],
    },
    Spring {
        link: u32,
        axis: u32,
        stiffness: f32,
        rest: f32,
    },
    SpringOf {
        link: u32,
        axis: u32,
    },
    Coupling(NewCoupling),
    Step {
        dt: f32,
    },
    Root {
        to: RootType,
        pose: Pose,
    },
    Branch {
        link: u32,
    },
    View {
        role: Role,
        link: u32,
    },
    Jmul {
        link: u32,
        accelerations: Vec<f32>,
    },
    Masks {
        locked: u32,
        limit: u32,
        motor: u32,
    },
    Starts {
        masks: Vec<u32>,
    },
    Rot {
        angle: f32,
    },
    Split {
        how: Split,
        link: u32,
    },
    Part {
        how: Split,
        link: u32,
        part: u32,
    },
    Mass {
        matrix: Vec<f32>,
    },
    Short {
        floats: u32,
    },
    ShortRows {
        floats: u32,
    },
    ShortOut {
        places: u32,
    },
    Solve {
        right: Vec<f32>,
    },
    Limit {
        link: u32,
        axis: u32,
        limit: Limit,
    },
    Friction {
        link: u32,
        axis: u32,
        dt: f32,
        cfm_coeff: f32,
    },
    Filljac {
        link: u32,
        force: [f32; 2],
        torque: f32,
    },
    Dump,
    Kin,
    Check,
    Poke(Poke),
}

/// A write past the calls.
#[derive(Clone, Copy, Debug)]
pub enum Poke {
    Links(u8),
    Couplings(u8),
    Tag(usize, u32),
    Parent(usize, u8),
    Locked(usize, u8),
    Limit(usize, u8),
    Motor(usize, u8),
    Coordinate(usize, usize, f32),
    Rotation(usize, [f32; 2]),
    Pose(usize, Pose),
    Coupling {
        at: usize,
        link1: u8,
        axis1: u8,
        link2: u8,
        axis2: u8,
    },
    Table(usize, f32),
}

/// The first word of every command.
pub const NAMES: [&str; 33] = [
    "new",
    "empty",
    "full",
    "link",
    "row",
    "coord",
    "frames",
    "com",
    "spring",
    "spring_of",
    "coupling",
    "step",
    "root",
    "branch",
    "view",
    "jmul",
    "masks",
    "starts",
    "rot",
    "split",
    "part",
    "mass",
    "short",
    "short_rows",
    "short_out",
    "solve",
    "limit",
    "friction",
    "filljac",
    "dump",
    "kin",
    "check",
    "poke",
];

/// What a line is.
pub enum Line {
    /// A comment, or no word.
    Nothing,
    Unreadable,
    Command(Command),
}

/// Read a line, without its newline.
pub fn read(line: &[u8]) -> Line {
    if line.first() == Some(&b'#') || line.iter().all(|&b| b == b' ') {
        return Line::Nothing;
    }
    if line.len() > MOST_LINE {
        return Line::Unreadable;
    }
    command(&mut Words::of(line)).map_or(Line::Unreadable, Line::Command)
}

/// A command and nothing after it.
fn command(words: &mut Words) -> Option<Command> {
    let command = command_word(words)?;
    words.end()?;
    Some(command)
}

fn command_word(w: &mut Words) -> Option<Command> {
    Some(match w.word()? {
        b"new" => Command::New,
        b"empty" => Command::Empty,
        b"full" => Command::Full,
        b"link" => Command::Link(NewLink {
            tag: w.number()?,
            parent: w.number()?,
            locked: w.number()?,
            limit: w.number()?,
            motor: w.number()?,
            frame1: w.pose()?,
            frame2: w.pose()?,
            com: w.floats()?,
        }),
        b"row" => Command::Row {
            row: w.one_of(&RowName::WORDS)?,
            link: w.number()?,
            axis: w.number()?,
            value: w.float()?,
        },
        b"coord" => Command::Coord {
            link: w.number()?,
            axis: w.number()?,
            value: w.float()?,
        },
        b"frames" => Command::Frames {
            link: w.number()?,
            frame1: w.pose()?,
            frame2: w.pose()?,
        },
        b"com" => Command::Com {
            link: w.number()?,
            com: w.floats()?,
        },
        b"spring" => Command::Spring {
            link: w.number()?,
            axis: w.number()?,
            stiffness: w.float()?,
            rest: w.float()?,
        },
        b"spring_of" => Command::SpringOf {
            link: w.number()?,
            axis: w.number()?,
        },
        b"coupling" => {
            let [link1, axis1, link2, axis2] = [w.number()?, w.number()?, w.number()?, w.number()?];
            Command::Coupling(NewCoupling {
                links: [link1, link2],
                axes: [axis1, axis2],
                coeff: w.float()?,
                offset: w.float()?,
            })
        }
        b"step" => Command::Step { dt: w.float()? },
        b"root" => Command::Root {
            to: w.one_of(&RootType::WORDS)?,
            pose: w.pose()?,
        },
        b"branch" => Command::Branch { link: w.number()? },
        b"view" => Command::View {
            role: w.one_of(&Role::WORDS)?,
            link: w.number()?,
        },
        b"jmul" => Command::Jmul {
            link: w.number()?,
            accelerations: w.rest(float)?,
        },
        b"masks" => Command::Masks {
            locked: w.number()?,
            limit: w.number()?,
            motor: w.number()?,
        },
        b"starts" => Command::Starts { masks: w.rest(number)? },
        b"rot" => Command::Rot { angle: w.float()? },
        b"split" => Command::Split {
            how: w.one_of(&Split::WORDS)?,
            link: w.number()?,
        },
        b"part" => Command::Part {
            how: w.one_of(&Split::WORDS)?,
            link: w.number()?,
            part: w.number()?,
        },
        b"mass" => mass(w)?,
        b"short" => Command::Short { floats: w.number()? },
        b"short_rows" => Command::ShortRows { floats: w.number()? },
        b"short_out" => Command::ShortOut { places: w.number()? },
        b"solve" => Command::Solve { right: w.rest(float)? },
        b"limit" => Command::Limit {
            link: w.number()?,
            axis: w.number()?,
            limit: Limit {
                pos: w.float()?,
                min: w.float()?,
                max: w.float()?,
                dt: w.float()?,
                erp_inv_dt: w.float()?,
                cfm_coeff: w.float()?,
            },
        },
        b"friction" => Command::Friction {
            link: w.number()?,
            axis: w.number()?,
            dt: w.float()?,
            cfm_coeff: w.float()?,
        },
        b"filljac" => Command::Filljac {
            link: w.number()?,
            force: w.floats()?,
            torque: w.float()?,
        },
        b"dump" => Command::Dump,
        b"kin" => Command::Kin,
        b"check" => Command::Check,
        b"poke" => Command::Poke(poke(w)?),
        _ => return None,
    })
}

/// A matrix has as many floats as it says.
fn mass(w: &mut Words) -> Option<Command> {
    let n = w.up_to(DOFS as u32)? as usize;
    let matrix = w.rest(float)?;
    (matrix.len() == n * n).then_some(Command::Mass { matrix })
}

fn poke(w: &mut Words) -> Option<Poke> {
    fn below(w: &mut Words, count: usize) -> Option<usize> {
        w.up_to(count as u32 - 1).map(|n| n as usize)
    }
    fn link(w: &mut Words) -> Option<usize> {
        below(w, LINKS)
    }
    Some(match w.word()? {
        b"links" => Poke::Links(w.byte()?),
        b"couplings" => Poke::Couplings(w.byte()?),
        b"tag" => Poke::Tag(link(w)?, w.number()?),
        b"parent" => Poke::Parent(link(w)?, w.byte()?),
        b"locked" => Poke::Locked(link(w)?, w.byte()?),
        b"limit" => Poke::Limit(link(w)?, w.byte()?),
        b"motor" => Poke::Motor(link(w)?, w.byte()?),
        b"coordinate" => Poke::Coordinate(link(w)?, below(w, AXES)?, w.float()?),
        b"rotation" => Poke::Rotation(link(w)?, w.floats()?),
        b"pose" => Poke::Pose(link(w)?, w.pose()?),
        b"coupling" => Poke::Coupling {
            at: below(w, COUPLINGS)?,
            link1: w.byte()?,
            axis1: w.byte()?,
            link2: w.byte()?,
            axis2: w.byte()?,
        },
        b"table" => Poke::Table(below(w, LENT)?, w.float()?),
        _ => return None,
    })
}
