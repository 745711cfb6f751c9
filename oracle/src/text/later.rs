//! Commands beyond the replay script, for showing known differences; read only where asked for.
//!
//! ```text
//! inv X                                   the crate's reciprocal
//! driven LINK 0|1                         T-14's flag
//! couplingrows LINK ERP_INV_DT            T-07's rows
//! body LINK MASS INERTIA (9 floats)       force and torque, body velocity, joint velocity
//! accel DT                                T-02's accelerations
//! ik N (3·N floats) DAMPING (3) (N)       T-11: Jacobian in rows, movement, displacements
//! alone link .. | step DT | part ..       the crate's own call, with no kinematics after it
//! ```

use super::engine::{Engine, cuts, link_of, told};
use rapier::{Arm, Body, Row};
use script::{Command, Line, Lines, Session, Words, float, read, write_row};

/// The answer, if the line is such a command.
pub fn answer(session: &mut Session<Engine>, line: &[u8]) -> Option<String> {
    let mass = session.mass().to_vec();
    let arm = &mut session.engine.arm;
    arm.lend_mass(&mass);
    let mut text = b"ok\n".to_vec();
    match line.strip_prefix(b"alone ") {
        Some(rest) => alone(arm, read(rest))?,
        None => play(arm, line, &mut Lines::onto(&mut text))?,
    }
    String::from_utf8(text).ok()
}

fn play(arm: &mut Arm, line: &[u8], lines: &mut Lines) -> Option<()> {
    let mut words = Words::of(line);
    match words.word()? {
        b"inv" => lines.word("inv").float(rapier::inv(words.float()?)).end(),
        b"driven" => arm.set_driven(words.number()? as usize, words.number()? != 0),
        b"couplingrows" => {
            for row in arm.coupling_rows(words.number()? as usize, words.float()?) {
                write_row(lines.word("couplingrow"), &told(&row), [&row.j, &row.wj]);
            }
        }
        b"body" => {
            let link = words.number()? as usize;
            let body = Body {
                mass: words.float()?,
                inertia: words.float()?,
                force: words.floats()?,
                velocity: words.floats()?,
                joint_velocity: words.floats()?,
            };
            arm.set_body(link, &body);
        }
        b"accel" => {
            arm.accelerate(words.float()?);
            lines.word("accel").floats(arm.row(Row::Accelerations)).end();
        }
        b"ik" => {
            let columns = words.number()? as usize;
            let rows = (0..3 * columns).map(|_| words.float()).collect::<Option<Vec<f32>>>()?;
            let (damping, movement) = (words.float()?, words.floats()?);
            let moved = rapier::inverse_kinematics(&rows, damping, movement, &words.rest(float)?);
            lines.word("ik").floats(&moved).end();
        }
        _ => return None,
    }
    words.end()
}

fn alone(arm: &mut Arm, line: Line) -> Option<()> {
    match line {
        Line::Command(Command::Link(new)) => arm.add_link_alone(&link_of(&new)),
        Line::Command(Command::Step { dt }) => arm.integrate_alone(dt),
        Line::Command(Command::Part { how, link, part }) => {
            arm.take_part_alone(link as usize, cuts(how), part as usize);
        }
        _ => return None,
    }
    Some(())
}
