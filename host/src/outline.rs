//! An arm's outline: its tree, a line for each link.

use crate::Arm;
use crate::abi::Joint;
use crate::link::LinkView;
use std::fmt::{self, Debug, Formatter};

const AXES: [&str; 3] = ["x", "y", "angle"];

impl Debug for Arm {
    fn fmt(&self, f: &mut Formatter<'_>) -> fmt::Result {
        let (links, dofs, couplings) = (self.link_count(), self.dof_count(), self.couplings().len());
        write!(f, "arm of {links} links, {dofs} DoFs, {couplings} couplings")?;
        match self.links().next() {
            Some(root) => branch(self, root, 1, f),
            None => Ok(()),
        }
    }
}

/// A link, and below it its children, rising. A child's number is above its parent's, so this ends.
fn branch(arm: &Arm, link: LinkView, depth: usize, f: &mut Formatter<'_>) -> fmt::Result {
    let (number, tag, pose) = (link.number(), link.tag(), link.pose());
    write!(f, "\n{:1$}{number}: tag {tag}, ", "", 2 * depth)?;
    joint(link.joint(), f)?;
    write!(f, ", at ({}, {}) turned ({}, {})", pose.x, pose.y, pose.re, pose.im)?;
    let below = arm
        .links()
        .filter(|child| child.number() > number && child.parent() == number);
    for child in below {
        branch(arm, child, depth + 1, f)?;
    }
    Ok(())
}

/// The free coordinates.
fn joint(joint: &Joint, f: &mut Formatter<'_>) -> fmt::Result {
    let axes = (0..).zip(AXES.iter().zip(joint.coordinates));
    let mut free = axes.filter(|(bit, _)| joint.locked >> bit & 1 == 0).peekable();
    if free.peek().is_none() {
        return write!(f, "fixed");
    }
    write!(f, "free")?;
    free.try_for_each(|(_, (axis, value))| write!(f, " {axis} {value}"))
}
