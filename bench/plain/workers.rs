//! The stock workers that the generator asks for.

use crate::commands::{Data, Value};

pub enum Answer {
    Success(Data),
    Failure,
    Retry,
}

pub trait Worker {
    fn turn(&mut self, attempt: u32, input: &Data) -> Answer;
}

/// Succeeds with its input.
pub struct Echo;

/// Succeeds with the sum of the Ints of its input.
pub struct Sum;

/// Fails before the attempt that its input has under `until`, 2 where it has none.
pub struct FailUntil;

/// Is to be retried before that attempt.
pub struct RetryUntil;

impl Worker for Echo {
    fn turn(&mut self, _attempt: u32, input: &Data) -> Answer {
        Answer::Success(input.clone())
    }
}

impl Worker for Sum {
    fn turn(&mut self, _attempt: u32, input: &Data) -> Answer {
        let sum = input.values().map(|value| match value {
            Value::Int(number) => i64::from(*number),
            Value::Long(_) => 0,
        });
        Answer::Success(Data::from([("sum".to_string(), Value::Long(sum.sum()))]))
    }
}

impl Worker for FailUntil {
    fn turn(&mut self, attempt: u32, input: &Data) -> Answer {
        if i64::from(attempt) < until(input) {
            return Answer::Failure;
        }
        Answer::Success(input.clone())
    }
}

impl Worker for RetryUntil {
    fn turn(&mut self, attempt: u32, input: &Data) -> Answer {
        if i64::from(attempt) < until(input) {
            return Answer::Retry;
        }
        Answer::Success(input.clone())
    }
}

/// The attempt from which on a worker succeeds.
fn until(input: &Data) -> i64 {
    match input.get("until") {
        Some(Value::Int(attempt)) => i64::from(*attempt),
        _ => 2,
    }
}
