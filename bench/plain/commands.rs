//! What the engine is told, as far as the generator tells it.

use std::collections::BTreeMap;

/// Values by their keys.
pub type Data = BTreeMap<String, Value>;

#[derive(Clone)]
pub enum Value {
    Int(i32),
    #[expect(dead_code, reason = "no generated work reads a sum")]
    Long(i64),
}

#[derive(Clone, Copy)]
pub enum Network {
    NotRequired,
    Connected,
    Unmetered,
    NotRoaming,
    Metered,
}

/// What has to hold where a work starts.
#[derive(Clone, Copy)]
pub struct Constraints {
    pub network: Network,
    pub charging: bool,
    pub idle: bool,
    pub battery_not_low: bool,
    pub storage_not_low: bool,
}

impl Constraints {
    pub const NONE: Constraints = Constraints {
        network: Network::NotRequired,
        charging: false,
        idle: false,
        battery_not_low: false,
        storage_not_low: false,
    };

    /// Whether they hold where the device is so.
    pub fn are_met(&self, conditions: &Conditions) -> bool {
        let has_network = match self.network {
            Network::NotRequired => true,
            Network::Connected => conditions.connected,
            Network::Unmetered => conditions.connected && !conditions.metered,
            Network::NotRoaming => conditions.connected && !conditions.roaming,
            Network::Metered => conditions.connected && conditions.metered,
        };
        has_network
            && (!self.charging || conditions.charging)
            && (!self.idle || conditions.idle)
            && (!self.battery_not_low || !conditions.battery_low)
            && (!self.storage_not_low || !conditions.storage_low)
    }
}

/// How the device is; at the beginning nothing holds.
#[derive(Clone, Copy, Default)]
pub struct Conditions {
    pub connected: bool,
    pub metered: bool,
    pub roaming: bool,
    pub charging: bool,
    pub idle: bool,
    pub battery_low: bool,
    pub storage_low: bool,
}

/// The wait after a retry, in milliseconds, is doubled with each attempt.
#[derive(Clone, Copy)]
pub struct Backoff {
    pub delay: u64,
}

impl Backoff {
    pub const DEFAULT: Backoff = Backoff { delay: 30_000 };

    /// The longest wait, in milliseconds.
    const LONGEST: u64 = 18_000_000;

    /// The wait after an attempt, counted from 1, in milliseconds.
    pub fn wait_after(&self, attempt: u32) -> u64 {
        let doublings = (attempt - 1).min(11);
        (self.delay << doublings).min(Backoff::LONGEST)
    }
}

/// A work that is asked for, which runs once.
pub struct Request {
    pub id: u128,
    pub class: String,
    pub input: Data,
    pub tags: Vec<String>,
    pub constraints: Constraints,
    pub backoff: Backoff,
    pub initial_delay: u64,
    /// The ids of its prerequisites.
    pub after: Vec<u128>,
}

pub enum Command {
    Hush,
    Conditions(Conditions),
    Enqueue(Vec<Request>),
    Settle,
    CancelTag(String),
    Moment(u64),
    Summary,
}
