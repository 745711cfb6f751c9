//! What a generator has to know of an arm to choose what is accepted, and what comes of a split.

use script::Engine;
use script::limits::{AXES, COUPLINGS};

#[derive(Clone, Copy, Debug)]
pub struct ShapeLink {
    pub tag: u32,
    pub parent: usize,
    pub locked: u32,
}

impl ShapeLink {
    pub fn dofs(&self) -> usize {
        (!self.locked & 7).count_ones() as usize
    }
}

/// Links with their tags, parents and locked masks; the links of each coupling.
#[derive(Clone, Debug, Default)]
pub struct Shape {
    pub links: Vec<ShapeLink>,
    pub couplings: Vec<[usize; 2]>,
}

impl Shape {
    /// The shape of an arm that an engine has.
    pub fn of(engine: &impl Engine) -> Shape {
        let link = |number| {
            let link = engine.link(number);
            ShapeLink {
                tag: link.tag,
                parent: link.parent as usize,
                locked: link.locked.into(),
            }
        };
        let coupling = |number| {
            let coupling = engine.coupling(number);
            [coupling.link1 as usize, coupling.link2 as usize]
        };
        Shape {
            links: (0..engine.links()).map(link).collect(),
            couplings: (0..engine.counts()[1].min(COUPLINGS)).map(coupling).collect(),
        }
    }

    pub fn dofs(&self) -> usize {
        self.links.iter().map(ShapeLink::dofs).sum()
    }

    pub fn has_tag(&self, tag: u32) -> bool {
        self.links.iter().any(|link| link.tag == tag)
    }

    /// Link and axis wherever an axis is locked, or free.
    pub fn axes(&self, locked: bool) -> Vec<[usize; 2]> {
        let all = (0..self.links.len()).flat_map(|link| (0..AXES).map(move |axis| [link, axis]));
        all.filter(|&[link, axis]| (self.links[link].locked >> axis & 1 == 1) == locked)
            .collect()
    }

    /// Whether a split makes a link the head of a part: link 0, a link that is cut off, a child of a deleted one.
    pub fn is_head(&self, cut: bool, removed: usize, link: usize) -> bool {
        match cut {
            true => link == 0 || link == removed,
            false => link != removed && (link == 0 || self.links[link].parent == removed),
        }
    }

    pub fn heads(&self, cut: bool, removed: usize) -> Vec<usize> {
        (0..self.links.len())
            .filter(|&link| self.is_head(cut, removed, link))
            .collect()
    }

    /// The part under a head.
    pub fn part(&self, cut: bool, removed: usize, head: usize) -> Shape {
        let mut new_number = vec![None; self.links.len()];
        let mut part = Shape::default();
        for (number, link) in self.links.iter().enumerate() {
            if number == head {
                part.links.push(ShapeLink {
                    parent: 0,
                    locked: 7,
                    ..*link
                });
            } else if let (false, Some(parent)) = (
                self.is_head(cut, removed, number) || !cut && number == removed,
                new_number[link.parent],
            ) {
                part.links.push(ShapeLink { parent, ..*link });
            } else {
                continue;
            }
            new_number[number] = Some(part.links.len() - 1);
        }
        let kept = self
            .couplings
            .iter()
            .filter_map(|ends| Some([new_number[ends[0]]?, new_number[ends[1]]?]));
        part.couplings = kept.filter(|ends| !ends.contains(&0)).collect();
        part
    }
}
