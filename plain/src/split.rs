//! Splits: a link goes, or its joint is cut, and the arm falls into parts.

use crate::arm::{Arm, Link, misplaces};
use crate::joint::Joint;
use crate::kinematics::{blocks_of, full_working};
use crate::limits::{LINKS, TABLES};
use crate::refusal::{Answer, Refusal::*};

pub use script::Split;

/// Stands for the part and the number of a link that is gone.
pub const GONE: u8 = 255;

/// Where each link of an arm comes to.
struct Parts {
    count: usize,
    /// A bit for each link that leads a part.
    heads: u16,
    /// The part and the new number of each link.
    places: [[u8; 2]; LINKS],
}

fn is_head(how: Split, i: usize, parent: usize, link: usize) -> bool {
    match how {
        Split::Delete => i != link && (i == 0 || parent == link),
        Split::Cut => i == 0 || i == link,
    }
}

/// How many parts there will be.
fn part_count(how: Split, links: &[Link], link: usize) -> usize {
    parents_of(links)
        .enumerate()
        .filter(|&(i, parent)| is_head(how, i, parent as usize, link))
        .count()
}

/// Parts are counted by their heads, and a part's links by their order in the old arm.
fn parts_of(how: Split, parents: impl Iterator<Item = u8>, link: usize) -> Parts {
    let mut parts = Parts {
        count: 0,
        heads: 0,
        places: [[GONE; 2]; LINKS],
    };
    let mut sizes = [0; LINKS];
    for (i, parent) in parents.enumerate() {
        let parent = parent as usize;
        let part = if is_head(how, i, parent, link) {
            parts.heads |= 1 << i;
            parts.count += 1;
            parts.count as u8 - 1
        } else if how == Split::Delete && i == link {
            continue;
        } else {
            parts.part(parent)
        };
        let size = &mut sizes[part as usize];
        parts.places[i] = [part, *size];
        *size += 1;
    }
    parts
}

impl Parts {
    fn part(&self, link: usize) -> u8 {
        self.places[link][0]
    }

    fn number(&self, link: u8) -> u8 {
        self.places[link as usize][1]
    }

    /// The places of so many links.
    fn write(&self, links: usize, map: &mut [u8]) {
        map[..2 * links].copy_from_slice(self.places[..links].as_flattened());
    }

    fn leads(&self, link: usize) -> bool {
        self.heads >> link & 1 == 1
    }
}

fn parents_of(links: &[Link]) -> impl Iterator<Item = u8> {
    links.iter().map(|link| link.parent)
}

/// Part and new number of each link of a bare list of parents, into `map`; the answer is the part count.
pub fn split_map(parents: &[u8], how: Split, link: u32, map: &mut [u8]) -> Answer<usize> {
    Short.when(map.len() < 2 * parents.len())?;
    Full.when(parents.len() > LINKS)?;
    Number.when(link as usize >= parents.len() || misplaces(parents))?;
    let parts = parts_of(how, parents.iter().copied(), link as usize);
    parts.write(parents.len(), map);
    Ok(parts.count)
}

impl Arm {
    /// The same for the arm's own links.
    pub fn split(&self, how: Split, link: u32, map: &mut [u8]) -> Answer<usize> {
        let links = self.links();
        self.tested(|rule| match rule {
            Short => map.len() < 2 * links.len(),
            Number => !self.has_link(link),
            _ => false,
        })?;
        let parts = parts_of(how, parents_of(links), link as usize);
        parts.write(links.len(), map);
        Ok(parts.count)
    }

    /// One part as an arm of its own, its blocks worked into `tables`.
    pub fn part(&self, how: Split, link: u32, part: u32, tables: &mut [f32]) -> Answer<Arm> {
        self.tested(|rule| match rule {
            Short => tables.len() < TABLES,
            Number => !self.has_link(link) || part as usize >= part_count(how, self.links(), link as usize),
            _ => false,
        })?;
        let parts = parts_of(how, parents_of(self.links()), link as usize);
        let mut arm = self.taken_apart(&parts, part as u8);
        let kept = full_working(arm.link_count, |i| &arm.links[i], blocks_of(tables))?;
        arm.keep(&kept);
        Ok(arm)
    }

    /// The links, rows and couplings that go with a part. Heads are fixed where they are.
    fn taken_apart(&self, parts: &Parts, part: u8) -> Arm {
        let mut arm = Arm::EMPTY;
        let (mut from, mut to) = (0, 0);
        for (i, old) in self.links().iter().enumerate() {
            let dofs = old.joint.dofs();
            if parts.part(i) == part {
                let link = &mut arm.links[arm.link_count];
                *link = *old;
                arm.link_count += 1;
                if parts.leads(i) {
                    link.parent = 0;
                    link.joint = Joint::fixed(old.kept.pose);
                } else {
                    link.parent = parts.number(old.parent);
                    for (row, old_row) in arm.rows.iter_mut().zip(&self.rows) {
                        row[to..to + dofs].copy_from_slice(&old_row[from..from + dofs]);
                    }
                    to += dofs;
                }
            }
            from += dofs;
        }
        let goes = |link: u8| parts.part(link as usize) == part && !parts.leads(link as usize);
        for &old in self.couplings().iter().filter(|c| goes(c.link1) && goes(c.link2)) {
            let coupling = &mut arm.couplings[arm.coupling_count];
            *coupling = old;
            coupling.link1 = parts.number(old.link1);
            coupling.link2 = parts.number(old.link2);
            arm.coupling_count += 1;
        }
        arm
    }
}
