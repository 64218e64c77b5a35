//! The engine: works by their numbers, and a heap of those that may start.

use crate::commands::{Backoff, Command, Conditions, Constraints, Data, Request};
use crate::workers::{Answer, Echo, FailUntil, RetryUntil, Sum, Worker};
use std::cmp::Reverse;
use std::collections::{BinaryHeap, HashMap, HashSet};

/// How many workers there are of each class.
const HANDS: usize = 4;

/// How many works there may be, and how many prerequisites each may have.
const WORKS: usize = 100_000;
const PREREQUISITES: usize = 100;

#[derive(Clone, Copy, PartialEq)]
enum Phase {
    Waiting,
    Running,
    Succeeded,
    Failed,
    Cancelled,
}

struct Record {
    class: String,
    input: Data,
    output: Data,
    constraints: Constraints,
    backoff: Backoff,
    initial_delay: u64,
    phase: Phase,
    attempt: u32,
    /// The attempt that its backoff counts from, 0 where there is none.
    backoff_attempt: u32,
    /// The moment from which its delay counts, in milliseconds.
    enqueued_at: u64,
    prerequisites: Vec<u64>,
    /// How many of them haven't succeeded.
    unmet: usize,
    dependents: Vec<u64>,
}

impl Record {
    /// The moment from which on it may start, in milliseconds.
    fn due(&self) -> u64 {
        let wait = match self.backoff_attempt {
            0 => self.initial_delay,
            attempt => self.backoff.wait_after(attempt),
        };
        self.enqueued_at + wait
    }

    fn is_finished(&self) -> bool {
        !matches!(self.phase, Phase::Waiting | Phase::Running)
    }
}

/// A worker, which isn't there while it has a run.
type Seat = Option<Box<dyn Worker>>;

/// A run that has a worker: its work, its class, the place of its worker there, and the worker.
struct Run {
    number: u64,
    class: String,
    place: usize,
    worker: Box<dyn Worker>,
}

#[derive(Default)]
pub struct Engine {
    now: u64,
    conditions: Conditions,
    next_number: u64,
    works: HashMap<u64, Record>,
    by_id: HashMap<u128, u64>,
    by_tag: HashMap<String, Vec<u64>>,
    seats: HashMap<String, Vec<Seat>>,
    /// Works whose prerequisites have succeeded, by the moments from which on they may start and by their numbers.
    ready: BinaryHeap<Reverse<(u64, u64)>>,
    /// Those of them that are due, but whose constraints aren't met.
    parked: Vec<(u64, u64)>,
}

impl Engine {
    pub fn new() -> Engine {
        let mut engine = Engine {
            next_number: 1,
            ..Engine::default()
        };
        engine.add_hands("Echo", || Box::new(Echo));
        engine.add_hands("Sum", || Box::new(Sum));
        engine.add_hands("FailUntil", || Box::new(FailUntil));
        engine.add_hands("RetryUntil", || Box::new(RetryUntil));
        engine
    }

    fn add_hands(&mut self, class: &str, hand: fn() -> Box<dyn Worker>) {
        let seats = (0..HANDS).map(|_| Some(hand())).collect();
        self.seats.insert(class.to_string(), seats);
    }

    /// Executes the command of a line, and tells its reply where that is a summary: no other one is written.
    pub fn execute(&mut self, line: usize, command: Command) -> Option<String> {
        match command {
            Command::Hush | Command::Settle => {}
            Command::Conditions(conditions) => self.change_conditions(conditions),
            Command::Enqueue(requests) => self.enqueue(requests),
            Command::CancelTag(tag) => self.cancel(&tag),
            Command::Moment(moment) => self.now = self.now.max(moment),
            Command::Summary => return Some(self.summary(line)),
        }
        None
    }

    /// Starts the work that is to start first, and runs it to its end, until there is none.
    pub fn run_until_quiet(&mut self) {
        while let Some(number) = self.first() {
            self.start(number);
        }
    }

    /// Places a batch, unless a check refuses it; then nothing changes.
    fn enqueue(&mut self, requests: Vec<Request>) {
        if self.is_allowed(&requests) {
            for request in requests {
                self.place(request);
            }
        }
    }

    /// Whether there is room for a batch, its ids are new, and each of its prerequisites stands before it.
    fn is_allowed(&self, requests: &[Request]) -> bool {
        let mut before = HashSet::new();
        self.works.len() + requests.len() <= WORKS
            && requests.iter().all(|request| {
                let follows = request.after.len() <= PREREQUISITES
                    && request
                        .after
                        .iter()
                        .all(|id| before.contains(id) || self.by_id.contains_key(id));
                follows && !self.by_id.contains_key(&request.id) && before.insert(request.id)
            })
    }

    /// Gives a work the next number.
    fn place(&mut self, mut request: Request) {
        let number = self.next_number;
        self.next_number += 1;
        self.by_id.insert(request.id, number);
        for tag in request.tags.drain(..) {
            self.by_tag.entry(tag).or_default().push(number);
        }
        let record = self.new_record(request);
        for prerequisite in &record.prerequisites {
            if let Some(record) = self.works.get_mut(prerequisite) {
                record.dependents.push(number);
            }
        }
        if record.phase == Phase::Waiting && record.unmet == 0 {
            self.ready.push(Reverse((record.due(), number)));
        }
        self.works.insert(number, record);
    }

    /// The record of a work that was asked for.
    fn new_record(&self, request: Request) -> Record {
        let prerequisites: Vec<u64> = request.after.iter().map(|id| self.by_id[id]).collect();
        let unmet = prerequisites
            .iter()
            .filter(|prerequisite| self.works[prerequisite].phase != Phase::Succeeded)
            .count();
        Record {
            class: request.class,
            input: request.input,
            output: Data::new(),
            constraints: request.constraints,
            backoff: request.backoff,
            initial_delay: request.initial_delay,
            phase: self.phase_after(&prerequisites),
            attempt: 0,
            backoff_attempt: 0,
            enqueued_at: self.now,
            prerequisites,
            unmet,
            dependents: Vec::new(),
        }
    }

    /// The phase of a new work with these prerequisites.
    fn phase_after(&self, prerequisites: &[u64]) -> Phase {
        let has = |phase| {
            prerequisites
                .iter()
                .any(|prerequisite| self.works[prerequisite].phase == phase)
        };
        if has(Phase::Failed) {
            Phase::Failed
        } else if has(Phase::Cancelled) {
            Phase::Cancelled
        } else {
            Phase::Waiting
        }
    }

    fn change_conditions(&mut self, conditions: Conditions) {
        self.conditions = conditions;
        self.ready.extend(self.parked.drain(..).map(Reverse));
    }

    /// Cancels the unfinished works of a tag with all that is after them.
    fn cancel(&mut self, tag: &str) {
        for number in self.by_tag.get(tag).cloned().unwrap_or_default() {
            self.close(number, Phase::Cancelled);
        }
    }

    /// Finishes a work and all that is after it, as far as they are unfinished.
    fn close(&mut self, number: u64, phase: Phase) {
        let mut open = vec![number];
        while let Some(number) = open.pop() {
            if let Some(record) = self.works.get_mut(&number) {
                if !record.is_finished() {
                    record.phase = phase;
                    open.extend(&record.dependents);
                }
            }
        }
    }

    /// The work that is to start first: of those that are due and whose constraints are met the one that is due first.
    fn first(&mut self) -> Option<u64> {
        while let Some(Reverse((due, number))) = self.ready.peek().copied() {
            if due > self.now {
                return None;
            }
            self.ready.pop();
            let record = &self.works[&number];
            if record.phase != Phase::Waiting {
                continue;
            }
            if record.constraints.are_met(&self.conditions) {
                return Some(number);
            }
            self.parked.push((due, number));
        }
        None
    }

    /// Starts a work and runs it to its end; without a worker of its class it fails.
    fn start(&mut self, number: u64) {
        let input = self.merged_input(number);
        let Some(mut run) = self.take_seat(number) else {
            self.close(number, Phase::Failed);
            return;
        };
        if let Some(record) = self.works.get_mut(&number) {
            record.attempt += 1;
            record.phase = Phase::Running;
            let answer = run.worker.turn(record.attempt, &input);
            self.end(run, answer);
        }
    }

    /// The input of a work, over which the outputs of its prerequisites are written.
    fn merged_input(&self, number: u64) -> Data {
        let record = &self.works[&number];
        let mut input = record.input.clone();
        for prerequisite in &record.prerequisites {
            let output = &self.works[prerequisite].output;
            input.extend(
                output
                    .iter()
                    .map(|(key, value)| (key.clone(), value.clone())),
            );
        }
        input
    }

    /// Takes the first idle worker of the class of a work.
    fn take_seat(&mut self, number: u64) -> Option<Run> {
        let class = self.works[&number].class.clone();
        let seats = self.seats.get_mut(&class)?;
        let place = seats.iter().position(Option::is_some)?;
        let worker = seats[place].take()?;
        Some(Run {
            number,
            class,
            place,
            worker,
        })
    }

    /// Ends a run with an answer, and gives its worker back.
    fn end(&mut self, run: Run, answer: Answer) {
        if let Some(seats) = self.seats.get_mut(&run.class) {
            seats[run.place] = Some(run.worker);
        }
        match answer {
            Answer::Success(output) => self.succeed(run.number, output),
            Answer::Failure => self.close(run.number, Phase::Failed),
            Answer::Retry => self.retry(run.number),
        }
    }

    /// A work has succeeded; those whose last missing prerequisite it was are ready.
    fn succeed(&mut self, number: u64, output: Data) {
        let Some(record) = self.works.get_mut(&number) else {
            return;
        };
        record.phase = Phase::Succeeded;
        record.output = output;
        for dependent in record.dependents.clone() {
            if let Some(record) = self.works.get_mut(&dependent) {
                record.unmet -= 1;
                if record.unmet == 0 && record.phase == Phase::Waiting {
                    record.enqueued_at = self.now;
                    self.ready.push(Reverse((record.due(), dependent)));
                }
            }
        }
    }

    /// A work waits for its next attempt.
    fn retry(&mut self, number: u64) {
        if let Some(record) = self.works.get_mut(&number) {
            record.phase = Phase::Waiting;
            record.backoff_attempt = record.attempt;
            record.enqueued_at = self.now;
            self.ready.push(Reverse((record.due(), number)));
        }
    }

    /// The reply of a summary, as the engine writes it.
    fn summary(&self, line: usize) -> String {
        let count = |is_counted: &dyn Fn(&Record) -> bool| {
            self.works
                .values()
                .filter(|record| is_counted(record))
                .count()
        };
        let attempts: u64 = self
            .works
            .values()
            .map(|record| u64::from(record.attempt))
            .sum();
        let blocked = count(&|record| record.phase == Phase::Waiting && record.unmet > 0);
        let enqueued = count(&|record| record.phase == Phase::Waiting && record.unmet == 0);
        let cancelled = count(&|record| record.phase == Phase::Cancelled);
        let failed = count(&|record| record.phase == Phase::Failed);
        let running = count(&|record| record.phase == Phase::Running);
        let succeeded = count(&|record| record.phase == Phase::Succeeded);
        format!(
            "{{\"attempts\":{attempts},\"blocked\":{blocked},\"cancelled\":{cancelled},\"enqueued\":{enqueued},\
             \"failed\":{failed},\"line\":{line},\"ok\":\"summary\",\"running\":{running},\"succeeded\":{succeeded}}}"
        )
    }
}
