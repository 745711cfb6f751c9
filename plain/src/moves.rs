//! The calls that end in kinematics: an empty arm, the full working, one-link moves and whole steps.

use crate::arm::{Arm, Link, RowName};
use crate::floats::finite;
use crate::joint::Joint;
use crate::kinematics::{Block, Working, block_of, blocks_of, full_working};
use crate::limits::{LINKS, TABLES};
use crate::masks::{ANGLE, is_axis, is_free};
use crate::point::Point;
use crate::pose::Pose;
use crate::refusal::{Answer, Refusal, Refusal::*};
use crate::rotation::is_wound;

impl Arm {
    /// Begin again with no links and cleared tables.
    pub fn make_empty(&mut self, tables: &mut [f32]) -> Answer {
        Short.when(tables.len() < TABLES)?;
        *self = Arm::EMPTY;
        tables[..TABLES].fill(0.0);
        Ok(())
    }

    /// Work out everything afresh.
    pub fn work_out(&mut self, tables: &mut [f32]) -> Answer {
        self.tested(|rule| rule == Short && tables.len() < TABLES)?;
        let kept = full_working(self.link_count, |i| &self.links[i], blocks_of(tables))?;
        self.keep(&kept);
        Ok(())
    }

    /// Move the whole arm on by `dt`, and work everything out.
    pub fn step(&mut self, tables: &mut [f32], dt: f32) -> Answer {
        self.tested(|rule| match rule {
            Short => tables.len() < TABLES,
            NotFinite => !dt.is_finite(),
            Wound => self.joints().any(|(joint, own)| {
                is_free(joint.locked, ANGLE) && is_wound(joint.moved_on(ANGLE, own[joint.dofs() - 1], dt))
            }),
            _ => false,
        })?;
        let mut links = self.links;
        for (link, (_, own)) in links.iter_mut().zip(self.joints()) {
            link.joint.integrate(own, dt);
        }
        let kept = full_working(self.link_count, |i| &links[i], blocks_of(tables))?;
        self.links = links;
        self.keep(&kept);
        Ok(())
    }

    /// Each joint with the velocities from its own onward.
    fn joints(&self) -> impl Iterator<Item = (&Joint, &[f32])> {
        let mut onward = &self.row(RowName::Velocities)[..];
        self.links().iter().map(move |link| {
            let own = onward;
            onward = &onward[link.joint.dofs()..];
            (&link.joint, own)
        })
    }

    /// Set a free coordinate of a link.
    pub fn move_coordinate(&mut self, tables: &mut [f32], link: u32, axis: u32, value: f32) -> Answer {
        self.tested(|rule| {
            self.move_breaks(rule, tables, link)
                || match rule {
                    Mask => !is_axis(axis),
                    Locked => self.locks(link, axis),
                    NotFinite => !value.is_finite(),
                    Wound => axis as usize == ANGLE && is_wound(value),
                    _ => false,
                }
        })?;
        self.moved(tables, link, |moved| moved.joint.set_coordinate(axis as usize, value))
    }

    /// Set a joint's frames.
    pub fn move_frames(&mut self, tables: &mut [f32], link: u32, frame1: Pose, frame2: Pose) -> Answer {
        self.tested(|rule| {
            self.move_breaks(rule, tables, link)
                || match rule {
                    NotFinite => !frame1.is_finite() || !frame2.is_finite(),
                    NotUnit => !frame1.rot.is_unit() || !frame2.rot.is_unit(),
                    _ => false,
                }
        })?;
        self.moved(tables, link, |moved| {
            moved.joint.frame1 = frame1;
            moved.joint.frame2 = frame2;
        })
    }

    /// Set a link's centre of mass.
    pub fn move_com(&mut self, tables: &mut [f32], link: u32, com: Point) -> Answer {
        self.tested(|rule| self.move_breaks(rule, tables, link) || rule == NotFinite && !com.is_finite())?;
        self.moved(tables, link, |moved| moved.com = com)
    }

    /// What any move asks for: tables, a link, and a parent's block to start from.
    #[inline(always)]
    fn move_breaks(&self, rule: Refusal, tables: &[f32], link: u32) -> bool {
        match rule {
            Short => tables.len() < TABLES,
            Number => !self.has_link(link),
            NotFinite => link != 0 && !finite(block_of(tables, self.links[link as usize].parent as usize)),
            _ => false,
        }
    }

    /// Change a link, and work out it and the links below it.
    fn moved(&mut self, tables: &mut [f32], link: u32, change: impl FnOnce(&mut Link)) -> Answer {
        let at = link as usize;
        let mut moved = self.links[at];
        change(&mut moved);
        let below = self.at_or_below(at);
        let tables = blocks_of(tables);
        match below.count_ones() {
            1 => self.refresh::<1>(at, moved, below, tables),
            2..=4 => self.refresh::<4>(at, moved, below, tables),
            _ => self.refresh::<LINKS>(at, moved, below, tables),
        }
    }

    /// A bit for the link and for each one below it.
    fn at_or_below(&self, link: usize) -> u16 {
        let mut below = 1 << link;
        for (i, other) in self.links().iter().enumerate().skip(link + 1) {
            below |= (below >> other.parent & 1) << i;
        }
        below
    }

    /// Work out the links of `below`, at most `N`, with `moved` in the place of link `at`.
    fn refresh<const N: usize>(&mut self, at: usize, moved: Link, below: u16, tables: &mut [Block; LINKS]) -> Answer {
        let mut working = Working::<N>::new();
        let mut start = self.start(at);
        for i in at..self.link_count {
            if below >> i & 1 == 1 {
                working.work(i, start, |i| if i == at { &moved } else { &self.links[i] }, tables)?;
            }
            start += self.links[i].joint.dofs();
        }
        self.links[at] = moved;
        working.write(|i, kept| self.links[i].kept = kept, tables);
        Ok(())
    }
}
