//! What kind of value each word of an answer is, and when two of them count as equal.

#[derive(Clone, Copy, Debug, PartialEq, Eq, PartialOrd, Ord)]
pub enum Class {
    Splits,
    Numbering,
    CouplingLists,
    StraightCoordinates,
    LimitBounds,
    AngleCoordinates,
    FrictionBounds,
    UnitRows,
    Rows,
    Springs,
    FramesAndCentres,
    Masks,
    Products,
    Rotations,
    RootFrames,
    Poses,
    Shifts,
    Jacobians,
    Filled,
    Sums,
    Solves,
    RowResults,
    Refusals,
    Tables,
    Form,
}

/// When two values count as equal.
#[derive(Clone, Copy, Debug, PartialEq)]
pub enum Rule {
    Exact,
    /// The same number; a zero's sign may differ.
    Number,
    /// Within this much.
    Within(f32),
    /// Within this share of max(1, the value's size).
    Share(f32),
}

impl Class {
    pub const ALL: [Class; 25] = [
        Class::Splits,
        Class::Numbering,
        Class::CouplingLists,
        Class::StraightCoordinates,
        Class::LimitBounds,
        Class::AngleCoordinates,
        Class::FrictionBounds,
        Class::UnitRows,
        Class::Rows,
        Class::Springs,
        Class::FramesAndCentres,
        Class::Masks,
        Class::Products,
        Class::Rotations,
        Class::RootFrames,
        Class::Poses,
        Class::Shifts,
        Class::Jacobians,
        Class::Filled,
        Class::Sums,
        Class::Solves,
        Class::RowResults,
        Class::Refusals,
        Class::Tables,
        Class::Form,
    ];

    pub fn rule(self) -> Rule {
        match self {
            Class::Products => Rule::Number,
            Class::Rotations => Rule::Within(0.000_001),
            Class::RootFrames
            | Class::Poses
            | Class::Shifts
            | Class::Jacobians
            | Class::Filled
            | Class::Sums
            | Class::Solves
            | Class::RowResults => Rule::Share(0.001),
            _ => Rule::Exact,
        }
    }

    pub fn name(self) -> &'static str {
        match self {
            Class::Splits => "splits",
            Class::Numbering => "numbering, branches, starts",
            Class::CouplingLists => "coupling lists",
            Class::StraightCoordinates => "straight-line coordinates",
            Class::LimitBounds => "limit bounds",
            Class::AngleCoordinates => "angle coordinates",
            Class::FrictionBounds => "friction bounds",
            Class::UnitRows => "J of limit and friction rows",
            Class::Rows => "rows and row views",
            Class::Springs => "springs",
            Class::FramesAndCentres => "frames, centres of mass",
            Class::Masks => "mask counts, default damping",
            Class::Products => "jacobian_mul_coordinates",
            Class::Rotations => "rotations",
            Class::RootFrames => "the root's first frame",
            Class::Poses => "world poses",
            Class::Shifts => "shifts",
            Class::Jacobians => "Jacobians",
            Class::Filled => "j and wj of fill_jacobians",
            Class::Sums => "sums of fill_jacobians",
            Class::Solves => "solutions, WJ",
            Class::RowResults => "rhs, cfm_gain, inv_lhs",
            Class::Refusals => "accepted or refused, as scripted",
            Class::Tables => "unused table places (01 alone)",
            Class::Form => "form of the answer",
        }
    }

    /// The class of a line's words before any keyword.
    fn of_line(first: &str) -> Class {
        match first {
            "split" => Class::Splits,
            "coupling" => Class::CouplingLists,
            "view" | "row" => Class::Rows,
            "spring" => Class::Springs,
            "masks" => Class::Masks,
            "rot" => Class::Rotations,
            "pose" => Class::Poses,
            "shifts" => Class::Shifts,
            "jac" => Class::Jacobians,
            "solve" => Class::Solves,
            "jmul" => Class::Products,
            "check" => Class::Tables,
            _ => Class::Numbering,
        }
    }

    /// The class that a keyword within a line opens.
    fn opened(first: &str, is_root: bool, keyword: &str) -> Option<Class> {
        Some(match (first, keyword) {
            ("link", "frame1") if is_root => Class::RootFrames,
            ("link", "frame1" | "frame2" | "com") => Class::FramesAndCentres,
            ("link", "coords") => Class::StraightCoordinates,
            ("link", "rot") => Class::Rotations,
            ("link", "stiffness" | "rest") => Class::Springs,
            ("limit", "bounds") => Class::LimitBounds,
            ("friction", "bounds") => Class::FrictionBounds,
            ("limit" | "friction", "rhs" | "cfm_gain" | "inv_lhs") => Class::RowResults,
            ("limit" | "friction", "j") => Class::UnitRows,
            ("limit" | "friction", "wj") => Class::Solves,
            ("filljac", "j" | "wj") => Class::Filled,
            ("filljac", "sums") => Class::Sums,
            _ => return None,
        })
    }
}

/// A word's class, and its place: the keyword before it and how many words stand between.
#[derive(Clone, Copy, Debug)]
pub struct Place<'a> {
    pub class: Class,
    pub keyword: &'a str,
    pub after: usize,
}

/// The place of each word of an answer's line.
pub fn places(line: &str) -> impl Iterator<Item = (&str, Place<'_>)> {
    let mut words = line.split(' ');
    let first = words.next().unwrap_or_default();
    let is_root = words.clone().next() == Some("0");
    let mut class = Class::of_line(first);
    let (mut keyword, mut next) = (first, 0);
    let head = Place {
        class: Class::Form,
        keyword,
        after: 0,
    };
    std::iter::once((first, head)).chain(words.map(move |word| {
        if let Some(opened) = Class::opened(first, is_root, word) {
            (class, keyword, next) = (opened, word, 0);
            let place = Place {
                class: Class::Form,
                keyword,
                after: 0,
            };
            return (word, place);
        }
        let after = next;
        next += 1;
        let class = match (class, after) {
            (Class::StraightCoordinates, 2) => Class::AngleCoordinates,
            // The number of a link, and of a row of its Jacobian.
            (Class::Poses | Class::Shifts, 0) | (Class::Jacobians, 0..=2) => Class::Numbering,
            _ => class,
        };
        (word, Place { class, keyword, after })
    }))
}

/// A float as an answer writes it.
pub fn float(word: &str) -> Option<f32> {
    let is_digit = |byte: u8| byte.is_ascii_digit() || (b'a'..=b'f').contains(&byte);
    if word.len() != 8 || !word.bytes().all(is_digit) {
        return None;
    }
    u32::from_str_radix(word, 16).ok().map(f32::from_bits)
}
