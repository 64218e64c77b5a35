//! The large input that a seed gives, by the rules of `generate` in `crates/wm_script`.

use crate::commands::{Backoff, Command, Conditions, Constraints, Data, Network, Request, Value};

/// A day, in milliseconds.
const DAY: u64 = 86_400_000;

const UNMETERED: Conditions = Conditions {
    connected: true,
    metered: false,
    roaming: false,
    charging: true,
    idle: true,
    battery_low: false,
    storage_low: false,
};

const METERED: Conditions = Conditions {
    metered: true,
    ..UNMETERED
};

/// Numbers that are drawn one after another.
struct Draws {
    number: u64,
}

impl Draws {
    /// Draws one of 0 to `end` - 1.
    fn draw(&mut self, end: u64) -> u64 {
        self.number = self
            .number
            .wrapping_mul(6_364_136_223_846_793_005)
            .wrapping_add(1_442_695_040_888_963_407);
        (self.number >> 33) % end
    }

    fn constraints(&mut self) -> Constraints {
        let signature = self.draw(80);
        Constraints {
            network: match signature / 16 {
                0 => Network::NotRequired,
                1 => Network::Connected,
                2 => Network::Unmetered,
                3 => Network::NotRoaming,
                _ => Network::Metered,
            },
            charging: signature & 8 != 0,
            idle: signature & 4 != 0,
            battery_not_low: signature & 2 != 0,
            storage_not_low: signature & 1 != 0,
        }
    }

    fn input(&mut self) -> Data {
        let number = self.draw(1_000) as i32;
        Data::from([("x".to_string(), Value::Int(number))])
    }
}

/// The commands of a seed, with so many groups of five works.
pub fn generate(seed: u64, groups: u64) -> Vec<Command> {
    let mut draws = Draws { number: seed };
    let mut commands = vec![Command::Hush, Command::Conditions(UNMETERED)];
    commands.extend((0..groups).map(|group| Command::Enqueue(group_of(seed, group, &mut draws))));
    commands.extend([
        Command::Settle,
        Command::Conditions(METERED),
        Command::Settle,
        Command::CancelTag("late".to_string()),
        Command::Settle,
        Command::Moment(30_000),
        Command::Settle,
        Command::Summary,
    ]);
    commands
}

/// The works of a group: three, one after these, and one after that one.
fn group_of(seed: u64, group: u64, draws: &mut Draws) -> Vec<Request> {
    let id = |place: u64| (u128::from(seed) << 64) + u128::from(5 * group + place);
    let mut works: Vec<Request> = (1..=3).map(|place| drawn_work(id(place), draws)).collect();
    let fourth = match group % 4 {
        0 => "Sum",
        1 => "FailUntil",
        2 => "RetryUntil",
        _ => {
            works[0].initial_delay = DAY;
            works[0].tags.push("late".to_string());
            "Echo"
        }
    };
    works.push(bare_work(id(4), fourth, vec![id(1), id(2), id(3)]));
    works.push(bare_work(id(5), "Echo", vec![id(4)]));
    works
}

/// An Echo with the constraints and the input that are drawn for it.
fn drawn_work(id: u128, draws: &mut Draws) -> Request {
    let constraints = draws.constraints();
    let input = draws.input();
    Request {
        input,
        constraints,
        ..bare_work(id, "Echo", Vec::new())
    }
}

fn bare_work(id: u128, class: &str, after: Vec<u128>) -> Request {
    Request {
        id,
        class: class.to_string(),
        input: Data::new(),
        tags: Vec::new(),
        constraints: Constraints::NONE,
        backoff: Backoff::DEFAULT,
        initial_delay: 0,
        after,
    }
}
