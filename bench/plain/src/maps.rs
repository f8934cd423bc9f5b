//! Maps of commands that are filled, asked, copied and merged over and over, and frames that are decoded.
//!
//! Command `i` has the tick `i / 8 % 2^17 * 40503 % 2^17`, the player `i % 8`, number 0, and stops the body
//! `i % 1024`. The map holds the commands 0 to HELD - 1; question `i` is about command `i % HELD * 7919 % HELD`. What
//! is printed is the sum of the answers in 64 bits:
//!
//! | TASK            | done COUNT times                                  | answer                |
//! |-----------------|---------------------------------------------------|-----------------------|
//! | `put`           | an empty map is filled with the HELD commands     | how many it holds     |
//! | `get`           | the payload of a name                             | its body              |
//! | `greatest`      | the greatest number of a tick and player          | the number plus 1     |
//! | `at-tick`       | the list of the payloads of a tick                | how many              |
//! | `merge-known`   | the commands 0 to 7 with body 0 are merged in     | how many were greater |
//! | `merge-greater` | the same with the body `1024 + i % 60000`         | how many were greater |
//! | `copy`          | the map is copied                                 | how many it holds     |
//! | `decode`        | one of the HELD frames, by `i % 1024`             | the command's tick    |

use std::collections::BTreeMap;

type Name = (u32, u8, u16);
type Payload = (u8, u16, i64, i64);
type Map = BTreeMap<Name, Payload>;

const M: i64 = (1 << 55) - 1;

fn command(i: u64, body: u16) -> (Name, Payload) {
    let tick = i / 8 % 131_072 * 40_503 % 131_072;
    ((tick as u32, (i % 8) as u8, 0), (2, body, 0, 0))
}

fn held_command(i: u64) -> (Name, Payload) {
    command(i, (i % 1024) as u16)
}

fn asked(i: u64, held: u64) -> Name {
    held_command(i % held * 7919 % held).0
}

/// The weight of a payload, as numbers to be compared in this order.
fn weight((kind, body, x, y): Payload) -> (u8, u16, u64, u64) {
    (kind, body, x as u64, y as u64)
}

fn is_news(map: &Map, (name, payload): (Name, Payload)) -> bool {
    map.get(&name).is_none_or(|held| weight(*held) < weight(payload))
}

fn put(map: &mut Map, command: (Name, Payload)) {
    if is_news(map, command) {
        map.insert(command.0, command.1);
    }
}

fn map_of(commands: impl Iterator<Item = (Name, Payload)>) -> Map {
    let mut map = Map::new();
    for command in commands {
        put(&mut map, command);
    }
    map
}

fn eight(body: u16) -> Map {
    map_of((0..8).map(|i| command(i, body)))
}

/// How many commands are new or greater. A copy of the map takes them, as it has to where memory may be refused.
fn merge(map: &mut Map, other: &Map) -> u64 {
    let news = other.iter().filter(|(name, payload)| is_news(map, (**name, **payload))).count();
    if news > 0 {
        let mut all = map.clone();
        for (name, payload) in other {
            put(&mut all, (*name, *payload));
        }
        *map = all;
    }
    news as u64
}

fn greatest(map: &Map, (tick, player, _): Name) -> u64 {
    let held = map.range((tick, player, 0)..=(tick, player, u16::MAX)).next_back();
    held.map_or(0, |(name, _)| u64::from(name.2) + 1)
}

fn at_tick(map: &Map, tick: u32) -> Vec<Payload> {
    map.range((tick, 0, 0)..=(tick, 7, u16::MAX)).map(|(_, payload)| *payload).collect()
}

fn encode(((tick, player, number), (kind, body, x, y)): (Name, Payload)) -> [u8; 27] {
    let mut frame = [0; 27];
    frame[0] = 1;
    frame[1..5].copy_from_slice(&tick.to_be_bytes());
    frame[5] = player;
    frame[6..8].copy_from_slice(&number.to_be_bytes());
    frame[8] = kind;
    frame[9..11].copy_from_slice(&body.to_be_bytes());
    frame[11..19].copy_from_slice(&x.to_be_bytes());
    frame[19..].copy_from_slice(&y.to_be_bytes());
    frame
}

#[inline(never)]
fn decode(frame: &[u8]) -> Option<(Name, Payload)> {
    let frame: &[u8; 27] = frame.try_into().ok()?;
    let number_at = |at: usize| i64::from_be_bytes(std::array::from_fn(|i| frame[at + i]));
    let tick = u32::from_be_bytes(std::array::from_fn(|i| frame[1 + i]));
    let (player, kind) = (frame[5], frame[8]);
    let number = u16::from_be_bytes([frame[6], frame[7]]);
    let body = u16::from_be_bytes([frame[9], frame[10]]);
    let (x, y) = (number_at(11), number_at(19));
    let canonical = match kind {
        0 => true,
        1 => y == 0,
        _ => x == 0 && y == 0,
    };
    let range = -M..=M;
    let fits = tick < 1 << 20 && player < 8 && body < 1 << 10 && range.contains(&x) && range.contains(&y);
    (frame[0] == 1 && kind <= 2 && canonical && fits).then_some(((tick, player, number), (kind, body, x, y)))
}

/// What came of a task, done so many times with a map of so many commands.
pub fn sum(task: &str, count: u64, held: u64) -> Option<u64> {
    let mut map = map_of((0..held).map(held_command));
    let sum = match task {
        "put" => (0..count).map(|_| map_of((0..held).map(held_command)).len() as u64).sum(),
        "get" => (0..count).map(|i| map.get(&asked(i, held)).map_or(0, |payload| u64::from(payload.1))).sum(),
        "greatest" => (0..count).map(|i| greatest(&map, asked(i, held))).sum(),
        "at-tick" => (0..count).map(|i| at_tick(&map, asked(i, held).0).len() as u64).sum(),
        "merge-known" => {
            let known = eight(0);
            (0..count).map(|_| merge(&mut map, &known)).sum()
        }
        "merge-greater" => (0..count).map(|i| merge(&mut map, &eight(1024 + (i % 60_000) as u16))).sum(),
        "copy" => (0..count).map(|_| map.clone().len() as u64).sum(),
        "decode" => {
            let frames: Vec<[u8; 27]> = (0..held).map(|i| encode(held_command(i))).collect();
            let tick_at = |i: u64| decode(frames.get((i % 1024) as usize)?);
            (0..count).filter_map(tick_at).map(|(name, _)| u64::from(name.0)).sum()
        }
        _ => return None,
    };
    Some(sum)
}
