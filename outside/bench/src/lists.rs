//! Lists of accepted steps that never come to an end, and scripts made of them.

use crate::library::Record;
use reference::Step;

/// A board's sizes and a list of steps on it, in the forms that the calls take, with a buffer for the answers.
pub struct Case {
    pub n: u16,
    pub m: u16,
    pub d: u16,
    pub steps: Vec<Step>,
    pub records: Vec<Record>,
    pub flat: Vec<u16>,
    pub answers: Vec<u16>,
    pub delays: Vec<u16>,
}

const DELAY: u16 = 1;

impl Case {
    /// n units in a binary tree, m slots, so many accepted steps.
    pub fn new(n: u16, m: u16, length: usize) -> Case {
        Case::of(n, m, accepted_steps(n, m, length))
    }

    pub fn of(n: u16, m: u16, steps: Vec<Step>) -> Case {
        Case {
            n,
            m,
            d: DELAY,
            records: steps.iter().map(Record::of).collect(),
            flat: steps.iter().flat_map(|step| [step.kind, step.unit, step.other, step.slot]).collect(),
            answers: vec![0; steps.len()],
            delays: Vec::new(),
            steps,
        }
    }

    /// The same with so many soundness tests of the board after the list.
    pub fn with_tests(mut self, tests: usize) -> Case {
        self.delays = vec![DELAY; tests];
        self
    }
}

/// Weight goes round among all units, in half of the slots; the other half holds work that is under way all the time.
/// Every eighth turn a unit of the lower half of the tree gives its weight back to its parent and gets work again.
fn accepted_steps(n: u16, m: u16, length: usize) -> Vec<Step> {
    let turning = m.div_ceil(2);
    let mut steps = vec![Step::start(0)];
    for unit in 1..n {
        for _ in 0..4 {
            steps.extend([Step::send(0, unit, 0), Step::deliver(0)]);
        }
    }
    steps.extend((turning..m).map(|slot| Step::send(0, slot % n, slot)));
    let mut turn = 0;
    while steps.len() < length {
        let (unit, slot) = ((turn % u32::from(n)) as u16, (turn % u32::from(turning)) as u16);
        steps.extend([Step::send(unit, (unit + 1) % n, slot), Step::deliver(slot)]);
        if turn % 8 == 7 && unit >= 3 {
            let parent = (unit - 1) / 2;
            steps.extend([Step::rest(unit), Step::tick(unit), Step::release(unit, slot), Step::deliver(slot)]);
            steps.extend([Step::send(parent, unit, slot), Step::deliver(slot)]);
        }
        turn += 1;
    }
    steps.truncate(length);
    steps
}

/// A script of so many bytes: the largest board, then such steps. A last line that is no step fills it up.
pub fn script(bytes: usize) -> Vec<u8> {
    let mut script = b"board\t256\t1".to_vec();
    for unit in 1..64 {
        script.extend(format!("\t{}", (unit - 1) / 2).bytes());
    }
    script.push(b'\n');
    let mut line = [0; 64];
    for step in accepted_steps(64, 256, bytes) {
        let count = reference::write_step(step, &mut line, 0).expect("a line fits in 64 bytes");
        if script.len() + count > bytes {
            break;
        }
        script.extend(&line[..count]);
    }
    script.resize(bytes, b'x');
    script
}
