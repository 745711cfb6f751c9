//! The rows of an arm: one entry for each degree of freedom.

/// A row that the arm keeps.
#[derive(Clone, Copy, Debug, PartialEq, Eq, Hash)]
pub enum RowName {
    /// The velocities, by which a step moves the joints.
    Velocities,
    /// The damping: 0.1 on a free angle at first, 0 elsewhere.
    Damping,
    /// The armature.
    Armature,
    /// The frictions, which bound a friction row.
    Frictions,
    /// The accelerations.
    Accelerations,
}

impl RowName {
    /// All five, in the order in which an arm keeps them.
    pub const ALL: [RowName; 5] = [
        RowName::Velocities,
        RowName::Damping,
        RowName::Armature,
        RowName::Frictions,
        RowName::Accelerations,
    ];
}

/// Which of two lent rows is asked for.
#[derive(Clone, Copy, Debug, PartialEq, Eq, Hash)]
pub enum Role {
    /// The velocities.
    Velocities,
    /// The accelerations.
    Accelerations,
}
