//! Timing: the start is restored before every repetition, outside of what is timed.

use crate::fast::{self, Answer};
use crate::workloads::Workload;
use crate::{machine, ours};
use std::time::{Duration, Instant};

/// Many short rounds, so that some of each side's are left undisturbed; long runs get fewer.
const MOST_ROUNDS: usize = 40;
const FEWEST_ROUNDS: usize = 5;
pub const ROUND: Duration = Duration::from_millis(2);
const LONG: Duration = Duration::from_millis(400);
/// The plain reference is given more steps as long as it needs less than this.
const PATIENCE: Duration = Duration::from_millis(60);

pub type Machine = fn(&[u8], &mut [u8], usize, &mut [u8], u32) -> Answer;

pub fn plain(program: &[u8], field: &mut [u8], used: usize, scratch: &mut [u8], budget: u32) -> Answer {
    let machine::Answer { code, steps, used, place } = machine::run(program, field, used, scratch, budget);
    Answer { code, steps, used, place }
}

/// The buffers of one machine.
struct Bench<'a> {
    workload: &'a Workload,
    machine: Machine,
    field: Vec<u8>,
    scratch: Vec<u8>,
}

impl<'a> Bench<'a> {
    fn new(workload: &'a Workload, machine: Machine) -> Bench<'a> {
        Bench { workload, machine, field: vec![0; workload.room], scratch: vec![0; workload.room] }
    }

    fn restore(&mut self) {
        self.field[..self.workload.start.len()].copy_from_slice(&self.workload.start);
    }

    /// Runs the workload, or makes its desk calls, with this many steps at most.
    fn run(&mut self, budget: u32) -> Answer {
        let Workload { program, start, by_desk, .. } = self.workload;
        let mut used = start.len();
        if !by_desk {
            return (self.machine)(program, &mut self.field, used, &mut self.scratch, budget);
        }
        let mut steps = 0;
        loop {
            let answer = (self.machine)(program, &mut self.field, used, &mut self.scratch, 1);
            steps += answer.steps;
            used = answer.used;
            if answer.code != fast::PAUSED || steps == budget {
                return Answer { steps, ..answer };
            }
        }
    }

    /// One timed run.
    fn time(&mut self, budget: u32) -> (Duration, Answer) {
        self.restore();
        let start = Instant::now();
        let answer = self.run(budget);
        (start.elapsed(), answer)
    }

    /// The mean over one round of runs.
    fn round(&mut self) -> f64 {
        let (mut total, mut runs) = (Duration::ZERO, 0);
        while total < ROUND {
            total += self.time(self.workload.budget).0;
            runs += 1;
        }
        total.as_nanos() as f64 / f64::from(runs)
    }
}

/// What was measured; times are nanoseconds a run.
pub struct Measured {
    pub steps: u32,
    pub ours: f64,
    pub fast: f64,
    /// The plain reference's time for one step.
    pub plain: Option<f64>,
}

impl Measured {
    /// A run without steps counts as one.
    pub fn a_step(&self, run: f64) -> f64 {
        run / f64::from(self.steps.max(1))
    }
}

pub fn measure(workload: &Workload, with_plain: bool) -> Measured {
    let mut sides = [Bench::new(workload, ours::run), Bench::new(workload, fast::run)];
    let steps = compare(&mut sides, workload.budget).steps;
    let plain = with_plain.then(|| time_plain(workload));
    let [ours, fast] = best_rounds(|side| sides[side].round());
    Measured { steps, ours, fast, plain }
}

/// The best round of each of two sides, in turns, so that a busy machine hits both.
pub fn best_rounds(mut round_of: impl FnMut(usize) -> f64) -> [f64; 2] {
    let mut best = [f64::INFINITY; 2];
    let start = Instant::now();
    for round in 0..MOST_ROUNDS {
        if round >= FEWEST_ROUNDS && start.elapsed() > LONG {
            break;
        }
        for (side, best) in best.iter_mut().enumerate() {
            *best = best.min(round_of(side));
        }
    }
    best
}

/// Runs all sides and stops everything where they differ.
fn compare(sides: &mut [Bench], budget: u32) -> Answer {
    let answers: Vec<Answer> = sides.iter_mut().map(|side| side.time(budget).1).collect();
    let Workload { name, size, .. } = sides[0].workload;
    for (side, answer) in sides.iter().zip(&answers) {
        let same = *answer == answers[0] && side.field == sides[0].field && side.scratch == sides[0].scratch;
        assert!(same, "{name} {size} with budget {budget}: {answers:?}");
    }
    answers[0]
}

/// The plain reference's time a step over as many steps as patience allows; ours and the fast one are compared there.
fn time_plain(workload: &Workload) -> f64 {
    let mut bench = Bench::new(workload, plain);
    let mut budget = workload.budget.min(1);
    loop {
        let (time, answer) = bench.time(budget);
        let enough = answer.steps < budget || budget == workload.budget || time > PATIENCE;
        if enough {
            let mut sides = [bench, Bench::new(workload, ours::run), Bench::new(workload, fast::run)];
            compare(&mut sides, budget);
            return time.as_nanos() as f64 / f64::from(answer.steps.max(1));
        }
        budget = budget.saturating_mul(4).min(workload.budget);
    }
}
