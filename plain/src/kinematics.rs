//! Kinematics: a link's world pose, shifts and Jacobian block from its parent's.

use crate::arm::{Kept, Link};
use crate::floats::{finite, none_set};
use crate::limits::{AXES, BLOCK, DOFS, LINKS, TABLES};
use crate::masks::free_axes;
use crate::point::Point;
use crate::refusal::{Answer, Refusal::*};
use crate::rotation::Rotation;

/// A link's Jacobian: two rows of straight movement, one of turning.
pub type Block = [[f32; DOFS]; AXES];

/// Lent tables, long enough, as blocks.
pub fn blocks_of(tables: &mut [f32]) -> &mut [Block; LINKS] {
    let (rows, _) = tables[..TABLES].as_chunks_mut::<DOFS>();
    let (blocks, _) = rows.as_chunks_mut::<AXES>();
    blocks.try_into().expect("a block for each link")
}

/// The floats of one block of lent tables that are long enough.
pub fn block_of(tables: &[f32], link: usize) -> &[f32; BLOCK] {
    &tables.as_chunks().0[link]
}

fn is_finite(block: &Block) -> bool {
    finite(block.as_flattened())
}

/// Carry a block along: turning moves what is `by` away.
fn shift(block: &mut Block, by: Point) {
    let [x, y, turn] = block;
    for column in 0..DOFS {
        x[column] += -by.y * turn[column];
        y[column] += by.x * turn[column];
    }
}

/// Add a joint's own columns; `frame` is the world rotation of its frame 1.
fn add_own_columns(block: &mut Block, locked: u8, start: usize, frame: Rotation) {
    for (column, axis) in (start..).zip(free_axes(locked)) {
        let own = match axis {
            0 => [frame.re, frame.im, 0.0],
            1 => [-frame.im, frame.re, 0.0],
            _ => [0.0, 0.0, 1.0],
        };
        for (row, entry) in block.iter_mut().zip(own) {
            row[column] += entry;
        }
    }
}

/// Pose and shifts of the root.
fn root_kept(link: &Link) -> Kept {
    let pose = link.joint.body_to_parent();
    let joint = pose.on(link.joint.frame2.at);
    Kept {
        pose,
        shift02: Point::ZERO,
        shift23: pose.on(link.com).minus(joint),
    }
}

/// Pose and shifts of another link, of a parent with this centre of mass that is kept so.
fn child_kept(link: &Link, parent_com: Point, parent: &Kept) -> Kept {
    let pose = parent.pose.times(link.joint.body_to_parent());
    let joint = pose.on(link.joint.frame2.at);
    Kept {
        pose,
        shift02: joint.minus(parent.pose.on(parent_com)),
        shift23: pose.on(link.com).minus(joint),
    }
}

/// Results of up to `N` links that aren't written yet, for a later one may still be refused.
pub struct Working<const N: usize> {
    count: usize,
    links: [u8; N],
    kept: [Kept; N],
    blocks: [Block; N],
    /// Where a link's results stand in the lists, `NOWHERE` if it hasn't any.
    place: [u8; LINKS],
}

const NOWHERE: u8 = 255;

impl<const N: usize> Working<N> {
    pub fn new() -> Working<N> {
        Working {
            count: 0,
            links: [0; N],
            kept: [Kept::NONE; N],
            blocks: [[[0.0; DOFS]; AXES]; N],
            place: [NOWHERE; LINKS],
        }
    }

    /// Work out link `i`, whose DoFs begin at `start`, of the arm whose links `link_of` gives: from its parent's
    /// results here, or from what is kept of the parent in the arm and the tables.
    pub fn work<'a>(
        &mut self,
        i: usize,
        start: usize,
        link_of: impl Fn(usize) -> &'a Link,
        tables: &[Block; LINKS],
    ) -> Answer {
        let link = link_of(i);
        let (locked, frame1) = (link.joint.locked, link.joint.frame1.rot);
        let (earlier, block) = self.blocks.split_at_mut(self.count);
        let block = &mut block[0];
        let kept;
        if i == 0 {
            kept = root_kept(link);
            add_own_columns(block, locked, start, Rotation::IDENTITY.times(frame1));
        } else {
            let parent = link_of(link.parent.into());
            let (parent_kept, parent_block) = match self.place[link.parent as usize] {
                NOWHERE => (&parent.kept, &tables[link.parent as usize]),
                place => (&self.kept[place as usize], &earlier[place as usize]),
            };
            kept = child_kept(link, parent.com, parent_kept);
            *block = *parent_block;
            shift(block, kept.shift02);
            add_own_columns(block, locked, start, parent_kept.pose.rot.times(frame1));
        }
        shift(block, kept.shift23);
        Overflow.when(!none_set(kept.flags()) || !is_finite(block))?;

        self.kept[self.count] = kept;
        self.links[self.count] = i as u8;
        self.place[i] = self.count as u8;
        self.count += 1;
        Ok(())
    }

    /// Hand out what is kept of each link worked out, and write its block.
    pub fn write(&self, mut keep: impl FnMut(usize, Kept), tables: &mut [Block; LINKS]) {
        for place in 0..self.count {
            let link = self.links[place] as usize;
            keep(link, self.kept[place]);
            tables[link] = self.blocks[place];
        }
    }
}

impl<const N: usize> Default for Working<N> {
    fn default() -> Self {
        Working::new()
    }
}

/// Work out all links, rising, from nothing that is kept, and write all tables; the answer is what to keep of each link.
pub fn full_working<'a>(
    links: usize,
    link_of: impl Fn(usize) -> &'a Link,
    tables: &mut [Block; LINKS],
) -> Answer<[Kept; LINKS]> {
    let mut working = Working::<LINKS>::new();
    let mut start = 0;
    for i in 0..links {
        working.work(i, start, &link_of, tables)?;
        start += link_of(i).joint.dofs();
    }
    let mut all_kept = [Kept::NONE; LINKS];
    working.write(|i, kept| all_kept[i] = kept, tables);
    tables[links..].as_flattened_mut().as_flattened_mut().fill(0.0);
    Ok(all_kept)
}
