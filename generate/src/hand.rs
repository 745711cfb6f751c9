//! Arguments by chance: accepted ones mostly, others as a nature has it.

use crate::floats;
use crate::rng::Rng;
use crate::shape::Shape;
use plain::limits::MOST_ANGLE;
use plain::masks::ANGLE;
use script::limits::AXES;
use script::{Limit, NewCoupling, NewLink, Pose};

/// How arguments are chosen: chances in a thousand, for each argument.
#[derive(Clone, Copy, Debug)]
pub struct Nature {
    /// An argument that may be refused.
    pub fault: usize,
    /// A float that overflows soon.
    pub huge: usize,
    /// A float that vanishes soon.
    pub tiny: usize,
    /// Any other float is at most so large.
    pub most: f32,
}

impl Nature {
    /// Every argument is accepted where it has a place.
    pub const CALM: Nature = Nature {
        fault: 0,
        huge: 0,
        tiny: 0,
        most: 2.0,
    };
}

/// What draws arguments, for an arm of a shape.
#[derive(Clone, Debug)]
pub struct Hand {
    pub rng: Rng,
    pub nature: Nature,
}

impl Hand {
    pub fn faulty(&mut self) -> bool {
        self.rng.chance(self.nature.fault)
    }

    // ---- Floats

    /// A float as the nature has it, else by `usual`.
    fn float_by(&mut self, usual: impl Fn(&mut Rng) -> f32) -> f32 {
        let Nature { fault, huge, tiny, .. } = self.nature;
        let ordinary = 1000 - fault - huge - tiny;
        match self.rng.weighted(&[fault, huge, tiny, ordinary]) {
            0 => floats::odd(&mut self.rng),
            1 => floats::huge(&mut self.rng),
            2 => floats::tiny(&mut self.rng),
            _ => usual(&mut self.rng),
        }
    }

    pub fn float(&mut self) -> f32 {
        let most = self.nature.most;
        self.float_by(|rng| floats::within(rng, most))
    }

    pub fn floats(&mut self, count: usize) -> Vec<f32> {
        (0..count).map(|_| self.float()).collect()
    }

    /// Not below zero.
    pub fn positive(&mut self) -> f32 {
        self.float_by(floats::positive)
    }

    pub fn point(&mut self) -> [f32; 2] {
        [self.float(), self.float()]
    }

    pub fn pose(&mut self) -> Pose {
        let [re, im] = match self.faulty() {
            true => floats::odd_rotation(&mut self.rng),
            false => floats::unit_rotation(&mut self.rng),
        };
        [re, im, self.float(), self.float()]
    }

    /// A coordinate of an axis.
    pub fn coordinate(&mut self, axis: u32) -> f32 {
        match axis as usize {
            ANGLE if self.faulty() => floats::angle_border(&mut self.rng),
            ANGLE => self.float_by(|rng| floats::angle(rng, MOST_ANGLE)),
            _ => self.float(),
        }
    }

    /// At minus one the divisor of a row is zero.
    pub fn cfm_coeff(&mut self) -> f32 {
        match self.rng.below(16) {
            0 => -1.0,
            1 => 0.0,
            _ => self.positive(),
        }
    }

    // ---- Numbers

    /// A number that is out of every range, or only seems to be in it when it is cut.
    pub fn odd_number(&mut self, links: usize) -> u32 {
        let small = self.rng.below(20) as u32;
        match self.rng.below(8) {
            0 => links as u32,
            1 => links as u32 + 1,
            2 => self.rng.pick(&[3, 8, 15, 16, 17, 31, 32, 48, 255]),
            3 => 256 + small,
            4 => 65536 + small,
            5 => self
                .rng
                .pick(&[u32::MAX, u32::MAX - 1, 1 << 31, (1 << 31) - 1, 0xFFFF_FF00 + 3, 1 << 24]),
            6 => self.rng.bits(),
            _ => small,
        }
    }

    /// A number, unless there is none or the nature has it otherwise.
    fn or_odd(&mut self, number: Option<usize>, shape: &Shape) -> u32 {
        match number {
            Some(number) if !self.faulty() => number as u32,
            _ => self.odd_number(shape.links.len()),
        }
    }

    /// A link of the arm.
    pub fn some_link(&mut self, shape: &Shape) -> Option<usize> {
        match shape.links.len() {
            0 => None,
            count if self.rng.chance(150) => Some(count - 1),
            count => Some(self.rng.below(count)),
        }
    }

    pub fn link(&mut self, shape: &Shape) -> u32 {
        let link = self.some_link(shape);
        self.or_odd(link, shape)
    }

    pub fn axis(&mut self, shape: &Shape) -> u32 {
        let axis = self.rng.below(AXES);
        self.or_odd(Some(axis), shape)
    }

    /// A link and an axis of it that is free, if there is one.
    pub fn free_axis(&mut self, shape: &Shape) -> [u32; 2] {
        let free = shape.axes(false);
        if free.is_empty() || self.faulty() {
            return [self.link(shape), self.axis(shape)];
        }
        self.rng.pick(&free).map(|number| self.or_odd(Some(number), shape))
    }

    pub fn mask(&mut self) -> u32 {
        match self.faulty() {
            true => self.rng.pick(&[8, 9, 15, 16, 128, 255, 256, 259, 263, u32::MAX]),
            false => self.rng.pick(&[0, 1, 2, 3, 3, 3, 4, 5, 6, 7]),
        }
    }

    fn locked(&mut self, shape: &Shape) -> u32 {
        match shape.links.is_empty() && !self.faulty() {
            true => self.rng.pick(&[0, 7]),
            false => self.mask(),
        }
    }

    /// A tag that the arm hasn't.
    pub fn tag(&mut self, shape: &Shape) -> u32 {
        if !shape.links.is_empty() && self.faulty() {
            return shape.links[self.rng.below(shape.links.len())].tag;
        }
        let mut tag = match self.rng.below(4) {
            0 => self.rng.bits(),
            1 => self.rng.pick(&[0, 1, u32::MAX, 1 << 31]),
            _ => 100 + self.rng.below(1000) as u32,
        };
        while shape.has_tag(tag) {
            tag = self.rng.bits();
        }
        tag
    }

    // ---- Parts of an arm

    pub fn new_link(&mut self, shape: &Shape) -> NewLink {
        let last = shape.links.len().checked_sub(1);
        let parent = last.map_or(0, |last| match self.rng.below(4) {
            0 | 1 => last,
            _ => self.rng.below(last + 1),
        });
        NewLink {
            tag: self.tag(shape),
            parent: self.or_odd(Some(parent), shape),
            locked: self.locked(shape),
            limit: self.mask(),
            motor: self.mask(),
            frame1: self.pose(),
            frame2: self.pose(),
            com: self.point(),
        }
    }

    pub fn coupling(&mut self, shape: &Shape) -> NewCoupling {
        NewCoupling {
            links: [self.link(shape), self.link(shape)],
            axes: [self.axis(shape), self.axis(shape)],
            coeff: self.float(),
            offset: self.float(),
        }
    }

    /// Mostly a position between two limits, or at one of them.
    pub fn limit(&mut self) -> Limit {
        let ends = self.point();
        let (low, high) = (ends[0].min(ends[1]), ends[0].max(ends[1]));
        let [min, max] = match self.rng.below(12) {
            0 if self.nature.fault > 0 => ends,
            1 => [0.5, 0.5],
            2 if self.faulty() => [0.5, floats::beside(0.5, -1)],
            3 => [-0.0, 0.0],
            4 => [0.0, -0.0],
            _ => [low, high],
        };
        Limit {
            pos: match self.rng.below(6) {
                0 => min,
                1 => max,
                _ => self.float(),
            },
            min,
            max,
            dt: self.positive(),
            erp_inv_dt: match self.rng.chance(300) {
                true => 10.0,
                false => self.float(),
            },
            cfm_coeff: self.cfm_coeff(),
        }
    }
}
