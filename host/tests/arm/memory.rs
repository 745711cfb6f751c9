//! Memory to lend, between guards; and arms by their bits.

use giellavor::abi::{Arm, Edited, Point};

const GUARD: usize = 16;

/// What lent memory holds.
pub trait Item: Copy {
    const GUARD: Self;
    fn bits(self) -> u32;
}

impl Item for u8 {
    const GUARD: u8 = 0xA5;
    fn bits(self) -> u32 {
        self.into()
    }
}

impl Item for f32 {
    const GUARD: f32 = f32::from_bits(0x7FC5_A5A5);
    fn bits(self) -> u32 {
        self.to_bits()
    }
}

#[derive(Clone)]
pub struct Memory<T>(Vec<T>);

impl<T: Item> Memory<T> {
    pub fn new(items: impl IntoIterator<Item = T>) -> Memory<T> {
        let guard = [T::GUARD; GUARD];
        Memory(guard.into_iter().chain(items).chain(guard).collect())
    }

    pub fn lent(&mut self) -> &mut [T] {
        let end = self.0.len() - GUARD;
        &mut self.0[GUARD..end]
    }

    /// Has nothing changed but the first n items? The guards count.
    pub fn same_past(&self, before: &Memory<T>, n: usize) -> bool {
        let same = |a: &[T], b: &[T]| a.iter().map(|x| x.bits()).eq(b.iter().map(|x| x.bits()));
        let free = (GUARD + n).min(self.0.len() - GUARD);
        self.0.len() == before.0.len()
            && same(&self.0[..GUARD], &before.0[..GUARD])
            && same(&self.0[free..], &before.0[free..])
    }
}

/// An arm that is edited in its place, between guards.
#[repr(C)]
pub struct Place {
    front: [u8; GUARD],
    pub edited: Edited,
    back: [u8; GUARD],
}

impl Place {
    /// No call answers the number that stands there before.
    pub fn of(arm: &Arm) -> Place {
        let edited = Edited {
            arm: *arm,
            refusal: u8::MAX,
        };
        let guard = [u8::GUARD; GUARD];
        Place {
            front: guard,
            edited,
            back: guard,
        }
    }

    pub fn is_guarded(&self) -> bool {
        [self.front, self.back] == [[u8::GUARD; GUARD]; 2]
    }
}

// ---- By their bits

/// The same floats, bit for bit.
pub fn same(a: &[f32], b: &[f32]) -> bool {
    a.iter().map(|x| x.to_bits()).eq(b.iter().map(|x| x.to_bits()))
}

/// The bits of every field of an arm, counted or not.
pub fn bits(arm: &Arm) -> Vec<u32> {
    arm.bits().collect()
}

pub const ORIGIN: Point = Point { x: 0.0, y: 0.0 };
