//! A session of an editor that keeps link numbers too long: a link in the middle is deleted, and then once more. By the number that it had, another link
//! would go: a number is a place in the arm, and can't promise which link has it. By its tag it is refused with 4, nothing changes, and the session goes
//! on.

use giellavor::{Arm, NewLink, Refusal, Split, Tag, Which};
use std::error::Error;
use std::io::{self, Write};

const BASE: Tag = Tag(10);
const LAMP: Tag = Tag(11);
const SHOULDER: Tag = Tag(12);
const ELBOW: Tag = Tag(13);
const WRIST: Tag = Tag(14);

/// A lamp on the base, and beside it an arm of three links.
fn lamp_and_arm() -> Result<Arm, Refusal> {
    let mut arm = Arm::new();
    arm.add_link(NewLink::fixed(BASE, 0))?;
    for (tag, parent) in [(LAMP, BASE), (SHOULDER, BASE), (ELBOW, SHOULDER), (WRIST, ELBOW)] {
        arm.add_link(NewLink::hinged(tag, parent))?;
    }
    Ok(arm)
}

fn tags(arm: &Arm) -> String {
    let tags: Vec<_> = arm.links().map(|link| link.tag().to_string()).collect();
    tags.join(" ")
}

/// Says what a deletion leaves, and gives the first part; the arm itself stays.
fn deleted(arm: &Arm, link: impl Into<Which>, out: &mut impl Write) -> io::Result<Option<Arm>> {
    let link = link.into();
    match arm.parts(Split::Delete(link)) {
        Ok(parts) => {
            let left: Vec<_> = parts.iter().map(tags).collect();
            writeln!(out, "  delete {link}: what is left has the tags {}", left.join(" and "))?;
            Ok(parts.into_iter().next())
        }
        Err(refusal) => {
            writeln!(out, "  delete {link}: {refusal}")?;
            Ok(None)
        }
    }
}

fn session(mut out: impl Write) -> Result<(), Box<dyn Error>> {
    let arm = lamp_and_arm()?;
    let (lamp, wrist) = (arm.link(LAMP)?.number(), arm.link(WRIST)?.number());
    writeln!(out, "an arm with the tags {}; the lamp is link {lamp}", tags(&arm))?;
    let arm = deleted(&arm, lamp, &mut out)?.unwrap_or(arm);

    writeln!(out, "once more by the number that it had, and the shoulder would go:")?;
    deleted(&arm, lamp, &mut out)?;
    writeln!(out, "an old number is refused only where no link has it now:")?;
    deleted(&arm, wrist, &mut out)?;
    writeln!(out, "by its tag it is refused:")?;
    deleted(&arm, LAMP, &mut out)?;

    writeln!(
        out,
        "the arm still has the tags {}, and the session goes on:",
        tags(&arm)
    )?;
    deleted(&arm, WRIST, &mut out)?;
    Ok(())
}

fn main() -> Result<(), Box<dyn Error>> {
    session(io::stdout().lock())
}

#[test]
fn by_its_old_number_another_link_would_go_and_by_its_tag_none() {
    let mut out = vec![];
    session(&mut out).unwrap();
    assert_eq!(
        String::from_utf8(out).unwrap(),
        "an arm with the tags 10 11 12 13 14; the lamp is link 1\n  \
           delete link 1: what is left has the tags 10 12 13 14\n\
         once more by the number that it had, and the shoulder would go:\n  \
           delete link 1: what is left has the tags 10 and 13 14\n\
         an old number is refused only where no link has it now:\n  \
           delete link 4: refused with 4: no such link, or a parent that does not come before its link\n\
         by its tag it is refused:\n  \
           delete the link tagged 11: refused with 4: no such link, or a parent that does not come before its link\n\
         the arm still has the tags 10 12 13 14, and the session goes on:\n  \
           delete the link tagged 14: what is left has the tags 10 12 13\n"
    );
}
