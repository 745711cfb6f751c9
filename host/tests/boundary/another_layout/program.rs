//! Makes every call of the crate and says each refusal. What is lent is looked at afterwards.

use giellavor::abi::{Edited, Force, Limits, NewCoupling, NewLink, Point, Pose, Spring};
use giellavor::{TABLES, ffi};

const POSE: Pose = Pose {
    re: 1.0,
    im: 0.0,
    x: 2.0,
    y: 3.0,
};
const BYTE: u8 = 77;
const FLOAT: f32 = 77.5;

fn main() {
    let mut tables = vec![FLOAT; TABLES];
    let mut edited = ffi::empty(&mut tables);
    println!("empty {}", edited.refusal);
    assert_eq!((edited.arm.link_count, edited.arm.links[0].tag), (0, 0));
    edited.arm.links[0].tag = 5;
    for (name, refusal) in edits(&mut edited, &mut tables) {
        println!("{name} {refusal}");
        assert_eq!((edited.refusal, edited.arm.links[0].tag), (255, 5));
    }
    assert!(tables.iter().all(|&float| float == FLOAT));
    over_numbers();
    of_an_arm(&edited);
}

fn edits(edited: &mut Edited, tables: &mut [f32]) -> [(&'static str, u8); 15] {
    let spring = Spring::default();
    [
        ("add_link", ffi::add_link(edited, tables, NewLink::fixed(1, 0))),
        ("add_coupling", ffi::add_coupling(edited, NewCoupling::default())),
        ("write_velocity", ffi::write_velocity(edited, 0, 0, 1.0)),
        ("write_damping", ffi::write_damping(edited, 0, 0, 1.0)),
        ("write_armature", ffi::write_armature(edited, 0, 0, 1.0)),
        ("write_friction", ffi::write_friction(edited, 0, 0, 1.0)),
        ("write_acceleration", ffi::write_acceleration(edited, 0, 0, 1.0)),
        ("set_spring", ffi::set_spring(edited, 0, 0, spring)),
        ("move_coordinate", ffi::move_coordinate(edited, tables, 0, 0, 1.0)),
        ("move_frames", ffi::move_frames(edited, tables, 0, POSE, POSE)),
        ("move_centre", ffi::move_centre(edited, tables, 0, Point::default())),
        ("full_working", ffi::full_working(edited, tables)),
        ("step", ffi::step(edited, tables, 1.0)),
        ("free_root", ffi::free_root(edited, tables, POSE)),
        ("fix_root", ffi::fix_root(edited, tables, POSE)),
    ]
}

fn over_numbers() {
    let (parents, mut bytes, mut floats) = ([0, 0], [BYTE; 16], [FLOAT; 2]);
    println!("split_delete {}", ffi::split_delete(&parents, 0, &mut bytes).refusal);
    println!("split_cut {}", ffi::split_cut(&parents, 0, &mut bytes).refusal);
    println!("dof_count {}", ffi::dof_count(0).refusal);
    println!("starts {}", ffi::starts(&parents, &mut bytes).refusal);
    let constraints = ffi::num_velocity_constraints(0, 0, 0);
    println!("num_velocity_constraints {}", constraints.refusal);
    println!("default_damping {}", ffi::default_damping(0, &mut bytes).refusal);
    println!("rotate {}", ffi::rotate(0.0).refusal);
    println!("solve {}", ffi::solve(1, &[1.0], &[1.0], &mut floats).refusal);
    println!("free_axis {}", ffi::free_axis(0, 0).refusal);
    println!("dof_count_below {}", ffi::dof_count_below(0, 0).refusal);
    println!("branch {}", ffi::branch(&parents, 0, &mut bytes).refusal);
    assert_eq!((bytes, floats), ([BYTE; 16], [FLOAT; 2]));
}

fn of_an_arm(edited: &Edited) {
    let arm = &edited.arm;
    let (mut tables, mut map, row) = (vec![FLOAT; TABLES], [BYTE; 32], [0.0; 48]);
    let (mut j, mut wj) = ([FLOAT; 48], [FLOAT; 48]);
    println!("part_delete {}", ffi::part_delete(arm, 0, 0, &mut tables).refusal);
    println!("part_cut {}", ffi::part_cut(arm, 0, 0, &mut tables).refusal);
    println!("link_start {}", ffi::link_start(arm, 0).refusal);
    println!("arm_dofs {}", ffi::arm_dofs(arm).refusal);
    println!("spring {}", ffi::spring(arm, 0, 0).refusal);
    println!(
        "jacobian_mul_coordinates {}",
        ffi::jacobian_mul_coordinates(arm, 0, &row).refusal
    );
    println!("kinematic_branch {}", ffi::kinematic_branch(arm, 0, &mut map).refusal);
    println!("arm_split_delete {}", ffi::arm_split_delete(arm, 0, &mut map).refusal);
    println!("arm_split_cut {}", ffi::arm_split_cut(arm, 0, &mut map).refusal);
    println!("view_velocities {}", ffi::view_velocities(arm, 0, &row, &row).refusal);
    println!(
        "view_accelerations {}",
        ffi::view_accelerations(arm, 0, &row, &row).refusal
    );
    let limits = Limits::default();
    println!(
        "limit_row {}",
        ffi::limit_row(arm, 0, 0, limits, &row, &mut j, &mut wj).refusal
    );
    println!(
        "friction_row {}",
        ffi::friction_row(arm, 0, 0, 1.0, 1.0, &row, &mut j, &mut wj).refusal
    );
    let force = Force::default();
    println!(
        "fill_jacobians {}",
        ffi::fill_jacobians(arm, 0, force, &tables, &row, &mut j, &mut wj).refusal
    );
    assert!(tables.iter().chain(&j).chain(&wj).all(|&float| float == FLOAT));
    assert_eq!(map, [BYTE; 32]);
}
