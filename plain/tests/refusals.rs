//! Each call refused by each number that it can get, the lowest of several, and nothing changed by it.

mod common;
use common::{last, play};

/// A free root, a link that turns, one that slides along X and one that is fixed; a coupling; a matrix.
const ARM: &str = "\
link 10 0 0 7 0 1 0 0.5 0 1 0 0 0 0.25 0
link 11 0 3 4 4 1 0 0 0.5 1 0 0.5 0 0.25 0
link 12 1 6 0 0 0.6 0.8 0 0.5 1 0 0 0 0 0
link 13 2 7 0 0 1 0 1 0 1 0 0 0 0 0
row vel 1 2 0.5
row fric 1 2 0.25
coupling 1 2 2 0 1 0
mass 5 4 0 0 0 0 0 4 0 0 0 0 0 4 0 0 0 0 0 4 0 0 0 0 0 4
";

const NEW_LINK: &str = "link 14 3 3 0 0 1 0 0 0 1 0 0 0 0 0";

/// Every call on the arm, as it is accepted.
const CALLS: [(&str, Uses); 22] = [
    ("full", Uses::TABLES),
    (NEW_LINK, Uses::TABLES),
    ("coord 1 2 0.5", Uses::TABLES),
    ("frames 1 1 0 0 0 1 0 0 0", Uses::TABLES),
    ("com 1 0 0", Uses::TABLES),
    ("step 0.5", Uses::TABLES),
    ("root free 1 0 0 0", Uses::TABLES),
    ("root fixed 1 0 0 0", Uses::TABLES),
    ("part delete 1 0", Uses::TABLES),
    ("part cut 1 1", Uses::TABLES),
    (
        "filljac 1 1 1 1",
        Uses {
            tables: true,
            mass: true,
            out: true,
            rows: false,
        },
    ),
    ("limit 1 2 0 0 1 0 10 0", Uses::ROW),
    ("friction 1 2 0.5 0", Uses::ROW),
    ("row vel 1 2 0.5", Uses::NOTHING),
    ("spring 1 2 1 0", Uses::NOTHING),
    ("spring_of 1 2", Uses::NOTHING),
    ("coupling 1 2 2 0 1 0", Uses::NOTHING),
    ("jmul 1 1", Uses::NOTHING),
    (
        "branch 3",
        Uses {
            out: true,
            ..Uses::NOTHING
        },
    ),
    (
        "split delete 1",
        Uses {
            out: true,
            ..Uses::NOTHING
        },
    ),
    (
        "view vel 1",
        Uses {
            rows: true,
            ..Uses::NOTHING
        },
    ),
    (
        "view acc 1",
        Uses {
            rows: true,
            ..Uses::NOTHING
        },
    ),
];

/// What a call is lent.
#[derive(Clone, Copy)]
struct Uses {
    tables: bool,
    mass: bool,
    out: bool,
    rows: bool,
}

impl Uses {
    const NOTHING: Uses = Uses {
        tables: false,
        mass: false,
        out: false,
        rows: false,
    };
    const TABLES: Uses = Uses {
        tables: true,
        ..Uses::NOTHING
    };
    const ROW: Uses = Uses {
        mass: true,
        out: true,
        ..Uses::NOTHING
    };
}

/// The answer to a call after `setup`; a refusal must leave everything as it is.
fn answer(setup: &str, call: &str) -> String {
    let answer = last(&format!("{ARM}{setup}\n{call}"));
    if answer.starts_with("refused") {
        let state = "dump\nkin\ncheck\n";
        let mut before = play(&format!("{ARM}{setup}\n{state}"));
        before.insert_str(play(&format!("{ARM}{setup}\n")).len(), &format!("{answer}\n"));
        assert!(
            before == play(&format!("{ARM}{setup}\n{call}\n{state}")),
            "{setup}: {call}"
        );
    }
    answer
}

fn refused(number: u8) -> String {
    format!("refused {number}")
}

#[test]
fn the_calls_as_they_stand_are_accepted() {
    for (call, _) in CALLS {
        assert!(answer("", call).starts_with("ok"), "{call}");
    }
}

#[test]
fn rule_1() {
    for (call, uses) in CALLS {
        let is_refused = |setup: &str| answer(setup, call) == refused(1);
        assert_eq!(is_refused("short 2303"), uses.tables, "{call}");
        assert_eq!(is_refused("short 24"), uses.tables || uses.mass, "{call}");
        assert_eq!(is_refused("short 25"), uses.tables, "{call}");
        assert_eq!(is_refused("short_out 0"), uses.out, "{call}");
        assert_eq!(is_refused("short_rows 4"), uses.rows, "{call}");
        assert!(!is_refused("short 2304\nshort_out 8\nshort_rows 5"), "{call}");
    }
    assert_eq!(answer("short_out 4", "limit 1 2 0 0 1 0 10 0"), refused(1));
    assert_eq!(answer("short_out 3", "branch 3"), refused(1));
    assert!(answer("short_out 4", "branch 3").starts_with("ok"));
    assert_eq!(answer("short_out 7", "split cut 1"), refused(1));
    assert!(answer("short_out 8", "split cut 1").starts_with("ok"));
    assert_eq!(answer("", "jmul 1"), refused(1));
    assert_eq!(answer("", "jmul 0 1 2"), refused(1));
    assert_eq!(answer("short 2303", "empty"), refused(1));
    assert_eq!(answer("short 2304", "empty"), "ok");
    assert_eq!(answer("", "solve 1 2 3 4 5 6"), refused(1));
    assert_eq!(answer("short_out 1", "solve 1 2"), refused(1));
    assert_eq!(answer("short 3", "solve 1 2"), refused(1));
    assert_eq!(answer("short_out 2", "starts 7 7 7"), refused(1));
    assert_eq!(
        answer("short_out 16", &format!("starts{}", " 7".repeat(17))),
        refused(1)
    );
}

/// The arm's own rules, in each call.
#[test]
fn arm_handed_in() {
    for (poke, number) in [
        ("links 17", 2),
        ("links 255", 2),
        ("couplings 9", 2),
        ("tag 3 10", 3),
        ("parent 0 1", 4),
        ("parent 2 2", 4),
        ("parent 2 255", 4),
        ("coupling 0 4 0 0 0", 4),
        ("coupling 0 0 0 255 0", 4),
        ("locked 0 1", 5),
        ("locked 3 15", 5),
        ("limit 3 8", 5),
        ("motor 3 255", 5),
        ("coupling 0 0 3 0 0", 5),
        ("coupling 0 0 0 0 255", 5),
        ("coordinate 3 0 nan", 7),
        ("rotation 3 inf 0", 7),
        ("pose 3 1 0 0 -inf", 7),
        ("coordinate 3 2 x43800001", 9),
        ("coordinate 0 2 -257", 9),
    ] {
        for (call, _) in CALLS {
            assert_eq!(answer(&format!("poke {poke}"), call), refused(number), "{poke}: {call}");
        }
    }
}

#[test]
fn places_past_the_counts_are_not_tested() {
    for poke in [
        "tag 4 10",
        "parent 4 9",
        "locked 5 255",
        "coordinate 4 2 nan",
        "pose 4 nan nan nan nan",
        "coupling 1 9 9 9 9",
    ] {
        for (call, _) in CALLS {
            assert!(
                answer(&format!("poke {poke}"), call).starts_with("ok"),
                "{poke}: {call}"
            );
        }
    }
}

#[test]
fn rule_2() {
    let links: String = (104..116)
        .map(|i| format!("link {i} 0 7 0 0 1 0 0 0 1 0 0 0 0 0\n"))
        .collect();
    assert_eq!(answer(&links, NEW_LINK), refused(2));
    let couplings = "coupling 0 0 0 0 0 0\n".repeat(7);
    assert_eq!(answer(&couplings, "coupling 0 0 0 0 0 0"), refused(2));
    assert_eq!(answer("", &format!("starts{}", " 7".repeat(17))), refused(2));
    assert!(answer("", &format!("starts{}", " 7".repeat(16))).starts_with("ok"));
}

#[test]
fn rule_3() {
    assert_eq!(answer("", "link 12 3 3 0 0 1 0 0 0 1 0 0 0 0 0"), refused(3));
}

#[test]
fn rule_4() {
    for number in ["4", "16", "255", "256", "4294967295"] {
        for call in [
            "link 14 # 3 0 0 1 0 0 0 1 0 0 0 0 0",
            "coord # 2 0.5",
            "frames # 1 0 0 0 1 0 0 0",
            "com # 0 0",
            "part delete # 0",
            "part cut # 0",
            "part cut 0 #",
            "filljac # 1 1 1",
            "limit # 2 0 0 1 0 10 0",
            "friction # 2 0.5 0",
            "row damp # 2 0.5",
            "spring # 2 1 0",
            "spring_of # 2",
            "coupling # 2 2 0 1 0",
            "coupling 1 2 # 0 1 0",
            "jmul # 1 1 1",
            "branch #",
            "split delete #",
            "split cut #",
            "view vel #",
        ] {
            let call = call.replace('#', number);
            assert_eq!(answer("", &call), refused(4), "{call}");
        }
    }
    assert_eq!(answer("", "part cut 0 1"), refused(4));
    assert_eq!(answer("", "part delete 1 2"), refused(4));
    for call in [
        "root free 1 0 0 0",
        "root fixed 1 0 0 0",
        "branch 0",
        "split cut 0",
        "link 1 1 7 0 0 1 0 0 0 1 0 0 0 0 0",
    ] {
        assert_eq!(answer("empty", call), refused(4), "{call}");
    }
}

#[test]
fn rule_5() {
    for axis in ["3", "255", "256", "258", "4294967295"] {
        for call in [
            "coord 1 # 0.5",
            "limit 1 # 0 0 1 0 10 0",
            "friction 1 # 0.5 0",
            "row acc 1 # 0.5",
            "spring 1 # 1 0",
            "spring_of 1 #",
            "coupling 1 # 2 0 1 0",
            "coupling 1 2 2 # 1 0",
        ] {
            let call = call.replace('#', axis);
            assert_eq!(answer("", &call), refused(5), "{call}");
        }
    }
    for mask in ["8", "255", "256", "263"] {
        for call in [
            "link 14 3 # 0 0 1 0 0 0 1 0 0 0 0 0",
            "link 14 3 3 # 0 1 0 0 0 1 0 0 0 0 0",
            "link 14 3 3 0 # 1 0 0 0 1 0 0 0 0 0",
            "masks # 0 0",
            "masks 0 # 0",
            "masks 0 0 #",
            "starts #",
            "starts 7 #",
        ] {
            let call = call.replace('#', mask);
            assert_eq!(answer("", &call), refused(5), "{call}");
        }
    }
    for mask in 1..7 {
        let first = format!("link 1 0 {mask} 0 0 1 0 0 0 1 0 0 0 0 0");
        assert_eq!(answer("empty", &first), refused(5));
        assert!(answer("", &format!("starts {mask}")).starts_with("ok"));
    }
}

#[test]
fn rule_6() {
    for at in ["1 0", "1 1", "2 1", "2 2", "3 0", "3 2"] {
        for call in ["coord # 0", "row vel # 0", "limit # 0 0 1 0 10 0", "friction # 0.5 0"] {
            let call = call.replace('#', at);
            assert_eq!(answer("", &call), refused(6), "{call}");
        }
        for call in ["spring # 1 0", "spring_of #", "coupling # 0 0 1 0"] {
            let call = call.replace('#', at);
            assert!(answer("", &call).starts_with("ok"), "{call}");
        }
    }
}

#[test]
fn rule_7() {
    for call in [
        "link 14 3 3 0 0 # 0 0 0 1 0 0 0 0 0",
        "link 14 3 3 0 0 1 # 0 0 1 0 0 0 0 0",
        "link 14 3 3 0 0 1 0 # 0 1 0 0 0 0 0",
        "link 14 3 3 0 0 1 0 0 0 1 0 0 # 0 0",
        "link 14 3 3 0 0 1 0 0 0 1 0 0 0 # 0",
        "link 14 3 3 0 0 1 0 0 0 1 0 0 0 0 #",
        "coord 1 2 #",
        "coord 0 0 #",
        "frames 1 1 0 0 # 1 0 0 0",
        "frames 1 1 0 0 0 # 0 0 0",
        "com 1 # 0",
        "com 1 0 #",
        "step #",
        "root free # 0 0 0",
        "root fixed 1 0 0 #",
        "row vel 1 2 #",
        "spring 1 2 # 0",
        "spring 1 2 0 #",
        "coupling 1 2 2 0 # 0",
        "coupling 1 2 2 0 0 #",
        "jmul 1 #",
        "rot #",
        "solve # 0",
        "limit 1 2 # 0 1 0 10 0",
        "limit 1 2 0 # 1 0 10 0",
        "limit 1 2 0 0 # 0 10 0",
        "limit 1 2 0 0 1 # 10 0",
        "limit 1 2 0 0 1 0 # 0",
        "limit 1 2 0 0 1 0 10 #",
        "friction 1 2 # 0",
        "friction 1 2 0.5 #",
        "filljac 1 # 1 1",
        "filljac 1 1 # 1",
        "filljac 1 1 1 #",
    ] {
        for float in ["nan", "inf", "-inf"] {
            let call = call.replace('#', float);
            assert_eq!(answer("", &call), refused(7), "{call}");
        }
    }
    assert!(answer("", "jmul 1 1 nan").starts_with("ok"));
}

#[test]
fn rule_7_of_lent_floats() {
    let nan = |entries: usize, at: usize| {
        let matrix: String = (0..entries * entries)
            .map(|i| if i == at { " nan" } else { " 1" })
            .collect();
        format!("mass {entries}{matrix}")
    };
    for call in [
        "limit 1 2 0 0 1 0 10 0",
        "friction 1 2 0.5 0",
        "filljac 1 1 1 1",
        "solve 1 2 3 4 5",
    ] {
        assert_eq!(answer(&nan(5, 24), call), refused(7), "{call}");
        assert_eq!(answer(&nan(6, 24), call), refused(7), "{call}");
        // Past what is needed nothing is read; these ones are singular.
        assert_eq!(answer(&nan(6, 25), call), refused(11), "{call}");
    }
    // The last float of the block of link 1, which links 1 itself, 2 and a new one lean on differently.
    let table = format!("poke table {} nan", 2 * 144 - 1);
    for (call, number) in [
        ("coord 2 0 0.5", 7),
        ("frames 2 1 0 0 0 1 0 0 0", 7),
        ("com 2 0 0", 7),
        ("link 14 1 3 0 0 1 0 0 0 1 0 0 0 0 0", 7),
        ("filljac 1 1 1 1", 7),
        ("coord 1 2 0.5", 0),
        ("coord 0 0 0.5", 0),
        ("com 3 0 0", 0),
        (NEW_LINK, 0),
        ("filljac 2 1 1 1", 0),
        ("full", 0),
        ("step 0.5", 0),
        ("root free 1 0 0 0", 0),
        ("part cut 0 0", 0),
    ] {
        let answer = answer(&table, call);
        if number == 0 {
            assert!(answer.starts_with("ok"), "{call}: {answer}");
        } else {
            assert_eq!(answer, refused(number), "{call}");
        }
    }
}

#[test]
fn rule_8() {
    for rotation in ["1.001 0", "0 0.9994", "max max", "0 0"] {
        for call in [
            "link 14 3 3 0 0 # 0 0 1 0 0 0 0 0",
            "link 14 3 3 0 0 1 0 0 0 # 0 0 0 0",
            "frames 1 # 0 0 1 0 0 0",
            "frames 1 1 0 0 0 # 0 0",
            "root free # 0 0",
            "root fixed # 0 0",
        ] {
            let call = call.replace('#', rotation);
            assert_eq!(answer("", &call), refused(8), "{call}");
        }
    }
    for rotation in ["1.0004 0", "0 -0.9996", "0.6 0.8"] {
        assert_eq!(answer("", &format!("root free {rotation} 0 0")), "ok");
    }
}

#[test]
fn rule_9() {
    for angle in ["x43800001", "xc3800001", "max", "-300"] {
        assert_eq!(answer("", &format!("coord 1 2 {angle}")), refused(9));
        assert_eq!(answer("", &format!("rot {angle}")), refused(9));
    }
    for angle in ["256", "-256"] {
        assert!(answer("", &format!("coord 1 2 {angle}")).starts_with("ok"));
    }
    assert_eq!(answer("row vel 1 2 256", "step 1"), "ok");
    assert_eq!(answer("row vel 1 2 256.001", "step 1"), refused(9));
    assert_eq!(answer("row vel 1 2 max", "step 2"), refused(9));
    assert_eq!(answer("row vel 1 2 max\nrow vel 0 0 max", "step 2"), refused(9));
    assert_eq!(answer("row vel 0 0 max", "step 2"), refused(12));
}

#[test]
fn rule_10() {
    assert_eq!(answer("", "limit 1 2 0 1 0 0 10 0"), refused(10));
    assert!(answer("", "limit 1 2 0 1 1 0 10 0").starts_with("ok"));
    assert!(answer("", "limit 1 2 0 0 -0 0 10 0").starts_with("ok"));
    assert_eq!(answer("", "friction 1 2 -0.5 0"), refused(10));
    assert_eq!(answer("row fric 1 2 -1", "friction 1 2 0.5 0"), refused(10));
    assert_eq!(answer("row fric 1 2 -max", "friction 1 2 2 0"), refused(10));
    assert!(
        answer("row fric 1 2 x80000001", "friction 1 2 0.25 0").starts_with("ok\nfriction bounds 00000000 80000000")
    );
}

#[test]
fn rule_11() {
    let singular = format!("mass 5{}", " 1".repeat(25));
    for call in [
        "limit 1 2 0 0 1 0 10 0",
        "friction 1 2 0.5 0",
        "filljac 1 1 1 1",
        "solve 1 2 3 4 5",
    ] {
        assert_eq!(answer(&singular, call), refused(11), "{call}");
    }
    // It goes before what the other results overflow by.
    assert_eq!(answer(&singular, "friction 1 2 max 0"), refused(11));
    assert_eq!(answer(&singular, "filljac 0 max max max"), refused(11));
    assert_eq!(answer("mass 1 -0", "solve 1"), refused(11));
}

#[test]
fn rule_12() {
    let small = "mass 5 4 0 0 0 0 0 4 0 0 0 0 0 4 0 0 0 0 0 0.5 0 0 0 0 0 4";
    let large = "mass 5 4 0 0 0 0 0 4 0 0 0 0 0 4 0 0 0 0 0 max 0 0 0 0 0 4";
    for (setup, call) in [
        ("poke rotation 2 max max", "full"),
        ("", "link 14 3 3 0 0 0.6 0.8 0 0 1 0 0 0 max max"),
        ("frames 0 1 0 max 0 1 0 0 0", "coord 0 0 max"),
        ("", "frames 2 1 0 0 0 0.6 0.8 max max"),
        ("", "com 2 max max"),
        ("row vel 0 0 max", "step 2"),
        ("com 0 max max", "root free 0.6 0.8 0 0"),
        ("com 0 max max", "root fixed 0.6 0.8 0 0"),
        ("com 3 max 0\npoke pose 3 1 0 max 0", "part cut 3 1"),
        // What has to be corrected, then the gain, then the reciprocal.
        ("", "limit 1 2 max -max -max 0 10 0"),
        (small, "limit 1 2 0 0 1 0 10 max"),
        (large, "limit 1 2 0 0 1 0 10 -0.75"),
        (large, "friction 1 2 1 -0.75"),
        ("row fric 1 2 max", "friction 1 2 2 0"),
        // The vector, then the sums.
        ("", "filljac 1 -max -max max"),
        ("", "filljac 1 max 0 0"),
        ("row vel 0 0 max", "filljac 1 2 0 0"),
        ("mass 1 0.5", "solve max"),
        ("mass 2 1 max 1 -max", "solve 1 1"),
        // A column that overflows comes before one that is all zero.
        ("mass 3 1 max 0 1 -max 0 1 0 0", "solve 1 1 1"),
        ("mass 3 1 0 max 1 0 -max 1 0 0", "solve 1 1 1"),
    ] {
        assert_eq!(answer(setup, call), refused(12), "{setup}: {call}");
    }
}

#[test]
fn a_divisor_that_overflows_is_none() {
    let mass = "mass 5 4 0 0 0 0 0 4 0 0 0 0 0 4 0 0 0 0 0 x01000000 0 0 0 0 0 4";
    let row = answer(mass, "limit 1 2 0 0 1 0 10 7");
    assert!(
        row.contains(" cfm_gain ") && row.contains(" inv_lhs 00000000 "),
        "{row}"
    );
}

#[test]
fn only_the_asked_part_overflows() {
    let setup = "com 3 max 0\npoke pose 3 1 0 max 0";
    assert_eq!(answer(setup, "part cut 3 0"), "ok");
    assert_eq!(answer(setup, "part cut 3 1"), refused(12));
    assert!(answer(setup, "split cut 3").starts_with("ok"));
}

#[test]
fn the_lowest_of_several() {
    assert_eq!(answer("short 0\npoke links 17", "coord 9 9 nan"), refused(1));
    assert_eq!(answer("poke links 17\npoke tag 3 10", "coord 9 9 nan"), refused(2));
    assert_eq!(answer("poke tag 3 10", "coord 9 9 nan"), refused(3));
    assert_eq!(answer("poke locked 3 8", "coord 9 9 nan"), refused(4));
    assert_eq!(answer("poke coordinate 3 0 nan", "coord 1 9 nan"), refused(5));
    assert_eq!(answer("poke coordinate 3 0 nan", "coord 1 0 nan"), refused(6));
    assert_eq!(answer("poke coordinate 3 2 300", "coord 1 2 nan"), refused(7));
    assert_eq!(
        answer("poke coordinate 3 2 300", "frames 1 2 0 0 0 1 0 0 0"),
        refused(8)
    );
    assert_eq!(
        answer("poke coordinate 3 2 300", "frames 1 nan 0 0 0 2 0 0 0"),
        refused(7)
    );
    assert_eq!(answer("poke coordinate 3 2 300", "limit 1 2 0 1 0 0 10 0"), refused(9));
    assert_eq!(answer("poke coordinate 3 2 300", "com 1 max max"), refused(9));
}
