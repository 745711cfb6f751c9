//! A link near the base of an arm is turned. Every link below it follows at once, not its children alone, and nothing else moves; the picture is what
//! the full working of the arm gives, bit for bit.

use giellavor::{Arm, NewLink, Pose, Refusal, axis};
use std::error::Error;
use std::io::{self, Write};

/// A base with a shoulder, elbow, wrist and finger in a row, each one unit on, and a lamp on the base.
const PARTS: [(&str, u32); 6] = [
    ("base", 0),
    ("shoulder", 0),
    ("elbow", 1),
    ("wrist", 2),
    ("finger", 3),
    ("lamp", 0),
];

fn arm() -> Result<Arm, Refusal> {
    let mut arm = Arm::new();
    arm.add_link(NewLink::fixed(0, 0))?;
    for (tag, (_, parent)) in (0..).zip(PARTS).skip(1) {
        let frame1 = Pose::at(1.0, 0.0);
        arm.add_link(NewLink {
            frame1,
            ..NewLink::hinged(tag, parent)
        })?;
    }
    Ok(arm)
}

fn show(arm: &Arm, out: &mut impl Write) -> io::Result<()> {
    for (link, (name, _)) in arm.links().zip(PARTS) {
        let pose = link.pose();
        writeln!(out, "  {name:8} at ({:.3}, {:.3})", pose.x, pose.y)?;
    }
    Ok(())
}

fn session(mut out: impl Write) -> Result<(), Box<dyn Error>> {
    let mut arm = arm()?;
    writeln!(out, "an arm stretched out:")?;
    show(&arm, &mut out)?;
    arm.move_coordinate(1, axis::ANGLE, 0.5)?;
    writeln!(out, "the shoulder turned by 0.5:")?;
    show(&arm, &mut out)?;
    writeln!(out, "as the full working gives it, bit for bit: {}", arm.is_settled())?;
    Ok(())
}

fn main() -> Result<(), Box<dyn Error>> {
    session(io::stdout().lock())
}

#[test]
fn every_link_below_follows_and_nothing_else_moves() {
    let mut out = vec![];
    session(&mut out).unwrap();
    assert_eq!(
        String::from_utf8(out).unwrap(),
        "an arm stretched out:\n  \
           base     at (0.000, 0.000)\n  \
           shoulder at (1.000, 0.000)\n  \
           elbow    at (2.000, 0.000)\n  \
           wrist    at (3.000, 0.000)\n  \
           finger   at (4.000, 0.000)\n  \
           lamp     at (1.000, 0.000)\n\
         the shoulder turned by 0.5:\n  \
           base     at (0.000, 0.000)\n  \
           shoulder at (1.000, 0.000)\n  \
           elbow    at (1.878, 0.479)\n  \
           wrist    at (2.755, 0.959)\n  \
           finger   at (3.633, 1.438)\n  \
           lamp     at (1.000, 0.000)\n\
         as the full working gives it, bit for bit: true\n"
    );
}
