//! How lines are read and answers are written.

mod common;
use common::{last, play};
use plain::Engine;
use script::{MOST_LINE, answers_to};

#[test]
fn lines_that_are_passed_over() {
    assert_eq!(play(""), "");
    assert_eq!(play("\n\n   \n#\n# new\n#unreadable\n"), "");
    let long = " ".repeat(MOST_LINE + 1);
    assert_eq!(play(&format!("{long}\n#{long}x\n")), "");
    assert_eq!(play(" # new\n"), "unreadable\n");
}

#[test]
fn the_last_line_may_lack_its_newline() {
    assert_eq!(play("full"), "ok\n");
    assert_eq!(play("full\nfull"), "ok\nok\n");
    assert_eq!(play("full\n"), "ok\n");
}

#[test]
fn spaces_part_words_and_nothing_else_does() {
    assert_eq!(play("  masks   0 0  0   \n").lines().next(), Some("ok"));
    for line in [
        "masks\t0 0 0",
        "masks 0 0 0\r",
        "masks 0 0 0\t",
        "masks 0 0 0 \r",
        "\u{feff}full",
        "full\0",
        "Full",
        "FULL",
    ] {
        assert_eq!(play(&format!("{line}\n")), "unreadable\n", "{line:?}");
    }
    assert_eq!(
        answers_to(Engine::default(), b"full\xFF\n\xFF\nfull\n"),
        b"unreadable\nunreadable\nok\n"
    );
}

#[test]
fn the_longest_line() {
    let padded = |length: usize| format!("full{}\n", " ".repeat(length - 4));
    assert_eq!(play(&padded(MOST_LINE)), "ok\n");
    assert_eq!(play(&padded(MOST_LINE + 1)), "unreadable\n");
    assert_eq!(play(&format!("{}full\n", " ".repeat(MOST_LINE - 4))), "ok\n");
    assert_eq!(play(&format!("{}full\n", " ".repeat(MOST_LINE - 3))), "unreadable\n");
    let zeros = |count: usize| play(&format!("rot {}1", "0".repeat(count)));
    assert_eq!(zeros(MOST_LINE - 5).lines().next(), Some("ok"));
    assert_eq!(zeros(MOST_LINE - 4), "unreadable\n");
}

#[test]
fn missing_and_spare_arguments() {
    for line in [
        "link 1 0 7 0 0 1 0 0 0 1 0 0 0 0 0",
        "row vel 0 0 1",
        "coord 0 0 1",
        "frames 0 1 0 0 0 1 0 0 0",
        "com 0 1 1",
        "spring 0 0 1 1",
        "spring_of 0 0",
        "coupling 0 0 0 0 1 1",
        "step 1",
        "root free 1 0 0 0",
        "branch 0",
        "view vel 0",
        "masks 0 0 0",
        "rot 0",
        "split cut 0",
        "part cut 0 0",
        "short 1",
        "short_rows 1",
        "short_out 1",
        "limit 0 0 0 0 0 0 0 0",
        "friction 0 0 0 0",
        "filljac 0 0 0 0",
        "poke links 0",
        "poke couplings 0",
        "poke tag 0 0",
        "poke parent 0 0",
        "poke locked 0 0",
        "poke limit 0 0",
        "poke motor 0 0",
        "poke coordinate 0 0 0",
        "poke rotation 0 1 0",
        "poke pose 0 1 0 0 0",
        "poke coupling 0 0 0 0 0",
        "poke table 0 0",
        "mass 1 1",
        "new",
        "empty",
        "full",
        "dump",
        "kin",
        "check",
    ] {
        assert!(!play(line).starts_with("unreadable"), "{line}");
        assert_eq!(play(&format!("{line} 0")), "unreadable\n", "{line}");
        if let Some((fewer, _)) = line.rsplit_once(' ') {
            assert_eq!(play(fewer), "unreadable\n", "{fewer}");
        }
    }
    for line in [
        "jmul",
        "jmul x",
        "starts x",
        "starts 0.5",
        "solve x",
        "mass",
        "mass 49",
        "mass 2 1 1 1",
        "mass 0 1",
        "poke",
    ] {
        assert_eq!(play(line), "unreadable\n", "{line}");
    }
    assert_eq!(play("mass 0"), "ok\n");
    assert_eq!(play(&format!("mass 48{}", " 0".repeat(48 * 48))), "ok\n");
}

#[test]
fn borders_of_pokes() {
    for (line, readable) in [
        ("poke links 255", true),
        ("poke links 256", false),
        ("poke couplings 256", false),
        ("poke tag 15 4294967295", true),
        ("poke tag 16 0", false),
        ("poke tag 0 4294967296", false),
        ("poke parent 0 255", true),
        ("poke parent 0 256", false),
        ("poke locked 0 256", false),
        ("poke limit 16 0", false),
        ("poke motor 0 256", false),
        ("poke coordinate 15 2 nan", true),
        ("poke coordinate 15 3 nan", false),
        ("poke coordinate 16 2 nan", false),
        ("poke rotation 16 1 0", false),
        ("poke pose 16 1 0 0 0", false),
        ("poke coupling 7 255 255 255 255", true),
        ("poke coupling 8 0 0 0 0", false),
        ("poke coupling 0 256 0 0 0", false),
        ("poke coupling 0 0 256 0 0", false),
        ("poke coupling 0 0 0 256 0", false),
        ("poke coupling 0 0 0 0 256", false),
        ("poke table 2319 0", true),
        ("poke table 2320 0", false),
        ("poke frame1 0 1 0 0 0", false),
    ] {
        assert_eq!(play(line), if readable { "ok\n" } else { "unreadable\n" }, "{line}");
    }
}

#[test]
fn an_unreadable_line_changes_nothing() {
    let arm = "link 1 0 0 0 0 1 0 0 0 1 0 0 0 0 0\n";
    let before = last(&format!("{arm}dump"));
    assert_eq!(
        last(&format!(
            "{arm}new 1\nempty x\ncoord 0 0 1 1\nroot fixed 1 0 0\nshort -1\nmass 1\npoke links 256\ndump"
        )),
        before
    );
}

#[test]
fn what_an_arm_prints() {
    let script = "\
link 4294967295 0 0 1 2 1 0 0 0 1 0 0 0 1 -0
link 0 0 3 4 4 0 1 0.5 0 1 0 0 0 0 0
coupling 0 1 1 2 2 -1
spring 1 0 3 4
dump
kin
check
";
    let zeros = |count| vec!["00000000"; count].join(" ");
    let one = "3f800000";
    let identity = format!("{one} {}", zeros(3));
    let expected = [
        "arm links 2 dofs 4 couplings 1".to_string(),
        format!(
            "link 0 tag 4294967295 parent 0 start 0 masks 0 1 2 frame1 {identity} frame2 {identity} com {one} 80000000 \
             coords {} rot {one} 00000000 stiffness {} rest {}",
            zeros(3),
            zeros(3),
            zeros(3)
        ),
        format!(
            "link 1 tag 0 parent 0 start 3 masks 3 4 4 frame1 00000000 {one} 3f000000 00000000 frame2 {identity} com {} \
             coords {} rot {one} 00000000 stiffness 40400000 {} rest 40800000 {}",
            zeros(2),
            zeros(3),
            zeros(2),
            zeros(2)
        ),
        format!("row vel {}", zeros(4)),
        "row damp 00000000 00000000 3dcccccd 3dcccccd".to_string(),
        format!("row arm {}", zeros(4)),
        format!("row fric {}", zeros(4)),
        format!("row acc {}", zeros(4)),
        "coupling 0 1 1 2 40000000 bf800000".to_string(),
        "ok".to_string(),
        format!("pose 0 {identity}"),
        format!("shifts 0 00000000 00000000 {one} 00000000"),
        format!("pose 1 00000000 {one} 3f000000 00000000"),
        "shifts 1 bf000000 00000000 00000000 00000000".to_string(),
        format!("jac 0 row 0 {one} {}", zeros(3)),
        format!("jac 0 row 1 00000000 {one} {one} 00000000"),
        format!("jac 0 row 2 00000000 00000000 {one} 00000000"),
        format!("jac 1 row 0 {one} {}", zeros(3)),
        format!("jac 1 row 1 00000000 {one} 3f000000 00000000"),
        format!("jac 1 row 2 00000000 00000000 {one} {one}"),
        "ok".to_string(),
        "check spare 0 past 0".to_string(),
    ]
    .join("\n");
    assert_eq!(play(script), format!("ok\nok\nok\nok\nok\n{expected}\n"));
}

#[test]
fn empty_lists_leave_no_space() {
    assert_eq!(
        last("dump"),
        "ok\narm links 0 dofs 0 couplings 0\nrow vel\nrow damp\nrow arm\nrow fric\nrow acc"
    );
    assert_eq!(last("kin"), "ok");
    assert_eq!(last("starts"), "ok\nstarts total 0");
    assert_eq!(last("solve"), "ok\nsolve");
    assert_eq!(last("masks 7 0 0"), "ok\nmasks dofs 0 constraints 0 damping");
    let fixed = "link 1 0 7 0 0 1 0 0 0 1 0 0 0 0 0\n";
    assert_eq!(last(&format!("{fixed}view acc 0")), "ok\nview");
    assert_eq!(
        last(&format!("{fixed}filljac 0 1 1 1")),
        "ok\nfilljac j wj sums 00000000 00000000"
    );
    assert_eq!(last(&format!("{fixed}kin")), {
        let zeros = "00000000 00000000 00000000";
        format!("ok\npose 0 3f800000 {zeros}\nshifts 0 00000000 {zeros}\njac 0 row 0\njac 0 row 1\njac 0 row 2")
    });
}

#[test]
fn counts_that_are_too_large_are_printed_as_they_are() {
    let lines = |script: &str| last(script).lines().count();
    assert!(last("poke links 200\npoke couplings 255\ndump").starts_with("ok\narm links 200 dofs 0 couplings 255\n"));
    assert_eq!(lines("poke links 200\npoke couplings 255\ndump"), 2 + 16 + 5 + 8);
    assert_eq!(lines("poke links 200\nkin"), 1 + 2 * 16 + 3 * 16);
    assert!(last("poke links 2\npoke locked 1 248\ndump").contains("dofs 3 "));
}

#[test]
fn a_nan_is_written_in_one_way() {
    assert!(
        last("link 1 0 7 0 0 1 0 0 0 1 0 0 0 0 0\npoke pose 0 xffffffff nan x7f800001 -inf\nkin")
            .contains("pose 0 7fc00000 7fc00000 7fc00000 ff800000")
    );
}

#[test]
fn checks_of_the_tables() {
    let arm = "link 1 0 0 0 0 1 0 0 0 1 0 0 0 0 0\n";
    for (poke, expected) in [
        ("poke table 2 5", "spare 0 past 0"),
        ("poke table 3 5", "spare 1 past 0"),
        ("poke table 3 -0", "spare 1 past 0"),
        ("poke table 144 nan", "spare 1 past 0"),
        ("poke table 2303 1\npoke table 47 1", "spare 2 past 0"),
        ("poke table 2304 1\npoke table 2319 0", "spare 0 past 2"),
        ("poke table 2304 1\npoke table 2304 x4b4b4b4b", "spare 0 past 0"),
        ("poke links 0", "spare 3 past 0"),
        ("poke table 3 5\nfull", "spare 0 past 0"),
        ("poke table 2304 5\nfull\nempty", "spare 0 past 1"),
        ("poke table 2304 5\nnew", "spare 0 past 0"),
    ] {
        assert_eq!(
            last(&format!("{arm}{poke}\ncheck")),
            format!("ok\ncheck {expected}"),
            "{poke}"
        );
    }
}

#[test]
fn loans_last_until_new() {
    assert_eq!(last("short 2303\nempty\nfull"), "refused 1");
    assert_eq!(last("short 2303\nnew\nfull"), "ok");
    assert_eq!(last("mass 1 2\nshort_out 0\nempty\nsolve 1"), "refused 1");
    assert_eq!(last("mass 1 2\nempty\nsolve 1"), "ok\nsolve 3f000000");
    assert_eq!(last("mass 1 2\nnew\nsolve 1"), "refused 1");
    assert_eq!(last("short_out 1\nnew\nstarts 7 7"), "ok\nstarts 0 0 total 0");
    assert_eq!(last("short 0\nmass 1 2\nsolve 1"), "refused 1");
    assert_eq!(last("short 4294967295\nmass 1 2\nsolve 1"), "ok\nsolve 3f000000");
}

#[test]
fn a_smaller_system_takes_the_first_floats() {
    assert_eq!(
        last("mass 3 2 0 0 4 nan 0 0 0 0\nsolve 1 1"),
        "ok\nsolve 3f000000 3e800000"
    );
}
