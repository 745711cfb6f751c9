//! Answers of a program compared with those of rapier2d's own multibody_joint files, or with the stored ones.

pub mod files;

pub mod class;

pub mod expected;

pub mod compare;

pub mod report;
pub mod stored;

pub mod selftest;

#[cfg(feature = "text")]
pub mod text;
