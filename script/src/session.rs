//! One run of a script: an engine, a mass matrix, and how much of what there is is lent.

use crate::command::{Command, Line, read};
use crate::engine::{Answer, Engine, No};
use crate::limits::{BLOCK, COUPLINGS, DOFS, LINKS, PAST, TABLES};
use crate::lines::Lines;
use crate::terms::{ConstraintRow, RowName};

/// Everything lent in full.
const IN_FULL: usize = usize::MAX;
/// What stands in lent bytes before a call.
const UNWRITTEN: u8 = 0xA5;

#[derive(Clone, Debug)]
pub struct Session<E> {
    pub engine: E,
    mass: Vec<f32>,
    short: usize,
    short_rows: usize,
    short_out: usize,
}

/// As much of a slice as is lent.
fn lent<T>(slice: &[T], short: usize) -> &[T] {
    &slice[..slice.len().min(short)]
}

fn lent_mut<T>(slice: &mut [T], short: usize) -> &mut [T] {
    let length = slice.len().min(short);
    &mut slice[..length]
}

/// Memory for a call to write into. A call may write the places that its answer has, and none if it is refused: that it didn't write others is seen by
/// what stood there before.
struct Out<T> {
    places: Vec<T>,
    unwritten: T,
    short: usize,
}

impl<T: Copy> Out<T> {
    fn new(count: usize, unwritten: T, short: usize) -> Out<T> {
        Out {
            places: vec![unwritten; count],
            unwritten,
            short,
        }
    }

    fn lent(&mut self) -> &mut [T] {
        lent_mut(&mut self.places, self.short)
    }

    fn is_untouched_from(&self, first: usize, same: fn(T, T) -> bool) -> Answer {
        let rest = self.places.get(first..).unwrap_or_default();
        match rest.iter().all(|&place| same(place, self.unwritten)) {
            true => Ok(()),
            false => Err(No::Wrong("wrote past its answer")),
        }
    }
}

impl Out<u8> {
    fn bytes(count: usize, short: usize) -> Out<u8> {
        Out::new(count, UNWRITTEN, short)
    }

    /// The first bytes, as many as `count` says of the answer.
    fn told<A>(&self, answer: Answer<A>, count: impl Fn(&A) -> usize) -> Answer<(A, &[u8])> {
        let first = answer.as_ref().map_or(0, count);
        self.is_untouched_from(first, |a, b| a == b)?;
        answer.map(|answer| (answer, lent(&self.places, first)))
    }
}

impl Out<f32> {
    fn floats(count: usize, short: usize) -> Out<f32> {
        Out::new(count, f32::from_bits(PAST), short)
    }

    fn told(&self, refused: bool, count: usize) -> Answer<&[f32]> {
        let first = if refused { 0 } else { count };
        self.is_untouched_from(first, |a, b| a.to_bits() == b.to_bits())?;
        Ok(lent(&self.places, first))
    }
}

impl<E: Engine> Session<E> {
    /// A run over an engine, which begins as after `new`.
    pub fn new(engine: E) -> Session<E> {
        let mut session = Session {
            engine,
            mass: Vec::new(),
            short: IN_FULL,
            short_rows: IN_FULL,
            short_out: IN_FULL,
        };
        session.renew();
        session
    }

    fn renew(&mut self) {
        self.engine.renew();
        self.mass.clear();
        [self.short, self.short_rows, self.short_out] = [IN_FULL; 3];
    }

    /// The mass matrix that was given last.
    pub fn mass(&self) -> &[f32] {
        &self.mass
    }

    /// Plays a line, given without its newline, and adds its answer.
    pub fn answer(&mut self, line: &[u8], text: &mut Vec<u8>) {
        match read(line) {
            Line::Nothing => {}
            Line::Unreadable => text.extend_from_slice(b"unreadable\n"),
            Line::Command(command) => self.answer_command(&command, text),
        }
    }

    /// The same for a command that was read.
    pub fn answer_command(&mut self, command: &Command, text: &mut Vec<u8>) {
        let begin = text.len();
        text.extend_from_slice(b"ok\n");
        if let Err(no) = self.play(command, &mut Lines::onto(text)) {
            text.truncate(begin);
            let mut lines = Lines::onto(text);
            match no {
                No::Refused(number) => lines.word("refused").number(number).end(),
                No::Unasked => lines.word("unasked").end(),
                No::Wrong(words) => lines.word("wrong").word(words).end(),
            }
        }
    }

    /// Plays a command; what comes after `ok` is written unless it has no answer.
    fn play(&mut self, command: &Command, lines: &mut Lines) -> Answer {
        let (engine, short) = (&mut self.engine, self.short);
        match *command {
            Command::New => self.renew(),
            Command::Empty => engine.make_empty(short)?,
            Command::Full => engine.work_out(short)?,
            Command::Link(ref new) => engine.add_link(short, new)?,
            Command::Row { row, link, axis, value } => engine.write_row(row, link, axis, value)?,
            Command::Coord { link, axis, value } => engine.move_coordinate(short, link, axis, value)?,
            Command::Frames { link, frame1, frame2 } => engine.move_frames(short, link, [frame1, frame2])?,
            Command::Com { link, com } => engine.move_com(short, link, com)?,
            Command::Spring {
                link,
                axis,
                stiffness,
                rest,
            } => engine.set_spring(link, axis, stiffness, rest)?,
            Command::Coupling(ref new) => engine.add_coupling(new)?,
            Command::Step { dt } => engine.step(short, dt)?,
            Command::Root { to, pose } => engine.change_root(short, to, pose)?,
            Command::Part { how, link, part } => engine.take_part(short, how, link, part)?,
            Command::Mass { ref matrix } => self.mass.clone_from(matrix),
            Command::Short { floats } => self.short = floats as usize,
            Command::ShortRows { floats } => self.short_rows = floats as usize,
            Command::ShortOut { places } => self.short_out = places as usize,
            Command::Poke(poke) => engine.poke(poke)?,
            Command::Dump => dump(engine, lines),
            Command::Kin => kin(engine, lines),
            Command::Check => check(engine, lines)?,
            Command::Solve { .. } | Command::Limit { .. } | Command::Friction { .. } | Command::Filljac { .. } => {
                return self.solve(command, lines);
            }
            _ => return self.ask(command, lines),
        }
        Ok(())
    }

    /// A question that leaves the arm as it is.
    fn ask(&self, command: &Command, lines: &mut Lines) -> Answer {
        let (engine, short_out) = (&self.engine, self.short_out);
        match *command {
            Command::SpringOf { link, axis } => lines.word("spring").floats(&engine.spring(link, axis)?).end(),
            Command::Branch { link } => {
                let mut out = Out::bytes(LINKS, short_out);
                let answer = engine.branch(link, out.lent());
                let (_, branch) = out.told(answer, |&count| count)?;
                lines.word("branch").numbers(branch).end();
            }
            Command::View { role, link } => {
                lines
                    .word("view")
                    .floats(&engine.view(role, link, self.short_rows)?)
                    .end();
            }
            Command::Jmul {
                link,
                ref accelerations,
            } => {
                let on_axes = engine.jacobian_mul_coordinates(link, accelerations)?;
                lines.word("jmul").floats(&on_axes).end();
            }
            Command::Masks { locked, limit, motor } => {
                let counts = engine.masks(locked, limit, motor)?;
                lines.word("masks").word("dofs").number(counts.dofs);
                lines.word("constraints").number(counts.constraints);
                lines.word("damping").floats(&counts.damping).end();
            }
            Command::Starts { ref masks } => {
                let mut out = Out::bytes(masks.len(), short_out);
                let answer = engine.starts(masks, out.lent());
                let (total, starts) = out.told(answer, |_| masks.len())?;
                lines.word("starts").numbers(starts).word("total").number(total).end();
            }
            Command::Rot { angle } => lines.word("rot").floats(&engine.rotation(angle)?).end(),
            Command::Split { how, link } => {
                let mut out = Out::bytes(2 * LINKS, short_out);
                let answer = engine.split(how, link, out.lent());
                let (parts, map) = out.told(answer, |_| 2 * engine.links())?;
                lines.word("split").number(parts);
                for place in map.chunks_exact(2) {
                    lines.pair(place[0], place[1]);
                }
                lines.end();
            }
            _ => return Err(No::Unasked),
        }
        Ok(())
    }

    /// A question that needs the mass matrix.
    fn solve(&mut self, command: &Command, lines: &mut Lines) -> Answer {
        let (engine, mass) = (&mut self.engine, lent(&self.mass, self.short));
        let dofs = engine.dofs();
        let [mut j, mut wj] = [0; 2].map(|_| Out::floats(DOFS, self.short_out));
        let vectors = [j.lent(), wj.lent()];
        match *command {
            Command::Solve { ref right } => {
                let mut out = Out::floats(right.len(), self.short_out);
                let answer = engine.solve(mass, right, out.lent());
                let solution = out.told(answer.is_err(), right.len())?;
                answer?;
                lines.word("solve").floats(solution).end();
            }
            Command::Limit { link, axis, ref limit } => {
                let row = engine.limit_row(mass, link, axis, limit, vectors);
                let vectors = [j.told(row.is_err(), dofs)?, wj.told(row.is_err(), dofs)?];
                write_row(lines.word("limit"), &row?, vectors);
            }
            Command::Friction {
                link,
                axis,
                dt,
                cfm_coeff,
            } => {
                let row = engine.friction_row(mass, link, axis, dt, cfm_coeff, vectors);
                let vectors = [j.told(row.is_err(), dofs)?, wj.told(row.is_err(), dofs)?];
                write_row(lines.word("friction"), &row?, vectors);
            }
            Command::Filljac { link, force, torque } => {
                let [x, y] = force;
                let sums = engine.fill_jacobians(self.short, mass, link, [x, y, torque], vectors);
                let [j, wj] = [j.told(sums.is_err(), dofs)?, wj.told(sums.is_err(), dofs)?];
                lines.word("filljac").word("j").floats(j).word("wj").floats(wj);
                lines.word("sums").floats(&sums?).end();
            }
            _ => return Err(No::Unasked),
        }
        Ok(())
    }
}

/// A constraint row, behind its name.
pub fn write_row(lines: &mut Lines, row: &ConstraintRow, [j, wj]: [&[f32]; 2]) {
    lines.word("bounds").floats(&row.bounds).word("rhs").float(row.rhs);
    lines.word("cfm_gain").float(row.cfm_gain);
    lines.word("inv_lhs").float(row.inv_lhs);
    lines.word("j").floats(j).word("wj").floats(wj).end();
}

fn dump(engine: &impl Engine, lines: &mut Lines) {
    let ([links, couplings], dofs) = (engine.counts(), engine.dofs());
    lines.word("arm").word("links").number(links).word("dofs").number(dofs);
    lines.word("couplings").number(couplings).end();
    for number in 0..links.min(LINKS) {
        let link = engine.link(number);
        lines.word("link").number(number).word("tag").number(link.tag);
        lines.word("parent").number(link.parent);
        lines.word("start").number(engine.start(number));
        lines.word("masks").numbers(&[link.locked, link.limit, link.motor]);
        lines
            .word("frame1")
            .floats(&link.frame1)
            .word("frame2")
            .floats(&link.frame2);
        lines.word("com").floats(&link.com).word("coords").floats(&link.coords);
        lines.word("rot").floats(&link.rot);
        lines.word("stiffness").floats(&link.stiffness);
        lines.word("rest").floats(&link.rest).end();
    }
    for (word, row) in RowName::WORDS {
        lines.word("row").word(word).floats(lent(&engine.row(row), dofs)).end();
    }
    for number in 0..couplings.min(COUPLINGS) {
        let coupling = engine.coupling(number);
        lines.word("coupling").number(coupling.link1).number(coupling.axis1);
        lines.number(coupling.link2).number(coupling.axis2);
        lines.float(coupling.coeff).float(coupling.offset).end();
    }
}

fn kin(engine: &impl Engine, lines: &mut Lines) {
    let (links, dofs) = (engine.links(), engine.dofs());
    for number in 0..links {
        let kept = engine.kept(number);
        lines.word("pose").number(number).floats(&kept.pose).end();
        lines.word("shifts").number(number).floats(&kept.shift02);
        lines.floats(&kept.shift23).end();
    }
    for number in 0..links {
        for row in 0..3 {
            lines.word("jac").number(number).word("row").number(row);
            lines.floats(lent(&engine.jacobian(number, row), dofs)).end();
        }
    }
}

/// How many floats of the tables that no link's used column holds aren't plus zero, and how many past them changed.
fn check(engine: &impl Engine, lines: &mut Lines) -> Answer {
    let (links, dofs) = (engine.links(), engine.dofs());
    let is_used = |at: usize| at / BLOCK < links && at % DOFS < dofs;
    let lent = engine.tables().ok_or(No::Unasked)?;
    let (tables, past) = lent.split_at_checked(TABLES).ok_or(No::Unasked)?;
    let places = tables.iter().enumerate();
    let spare = places.filter(|&(at, x)| !is_used(at) && x.to_bits() != 0);
    let changed = past.iter().filter(|x| x.to_bits() != PAST);
    lines.word("check").word("spare").number(spare.count());
    lines.word("past").number(changed.count()).end();
    Ok(())
}
