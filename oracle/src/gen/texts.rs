// Random plan texts that mostly get accepted: a line that the judge would refuse is mostly left out.

use super::lines::{line_of_add, line_of_request};
use super::rng::Rng;
use super::scene::Scene;
use crate::added::{HELD_ROWS, PLAN_REQUESTS, POOL_ROWS};
use crate::calls::{Add, Kind};
use crate::text::Reader;

/// A text made of whole, well-formed lines.
pub fn good_text(rng: &mut Rng) -> Vec<u8> {
    let (scene, heavy) = Scene::any(rng);
    let mut text = Draft { reader: Reader::new(), bytes: Vec::new(), keeps: 12, closed: false };
    for add in scene.wide_pools(rng) {
        text.offer(rng, line_of_add(&add));
    }
    if heavy {
        text.fill(rng, &scene);
    }
    for _ in 0..rng.pick(&[0, 1, 2, 4, 8, 12]) {
        let kind = scene.kind(rng);
        let add = if rng.chance(65) { scene.pool(rng, kind) } else { scene.hold(rng, kind) };
        text.offer(rng, line_of_add(&add));
    }
    if heavy {
        // else a refusal on the way would end nearly every long plan before it is too long
        text.keeps = 1;
    }
    for _ in 0..text.wants(rng, heavy) {
        let kind = scene.kind(rng);
        let request = scene.want(rng, kind, false);
        text.offer(rng, line_of_request(&request));
    }
    text.bytes
}

/// A text as far as it is written, and the reader that has read it so far.
struct Draft {
    reader: Reader,
    bytes: Vec<u8>,
    /// How many refused lines in a hundred are kept.
    keeps: u64,
    /// A refused line was kept: nothing behind it will be looked at.
    closed: bool,
}

impl Draft {
    /// Takes a line that is accepted; keeps a refused one now and then.
    fn offer(&mut self, rng: &mut Rng, line: Option<String>) {
        let Some(line) = line else { return };
        if !self.closed && self.reader.step(line.as_bytes()).is_refused() {
            if !rng.chance(self.keeps) {
                return;
            }
            self.closed = true;
        }
        self.write(&line);
    }

    fn write(&mut self, line: &str) {
        self.bytes.extend_from_slice(line.as_bytes());
        self.bytes.push(b'\n');
    }

    /// About as many rows as one table has, or twice as many lines of duplicates.
    fn fill(&mut self, rng: &mut Rng, scene: &Scene) {
        let kind = rng.pick(&Kind::ALL);
        let adds: Vec<Add> = if rng.chance(50) {
            let (fixed, rows) = (rng.chance(50), rng.between(POOL_ROWS as u64 - 2, POOL_ROWS as u64 + 2));
            scene.many_pools(rng, kind, fixed, rows)
        } else {
            let rows = rng.between(HELD_ROWS as u64 - 3, HELD_ROWS as u64 + 2);
            scene.many_holds(rng, kind, rows)
        };
        for line in adds.iter().filter_map(line_of_add) {
            self.offer(rng, Some(line));
        }
    }

    fn wants(&self, rng: &mut Rng, heavy: bool) -> u64 {
        if heavy {
            rng.pick(&[0, 1, 5, 60, 3 * PLAN_REQUESTS as u64])
        } else {
            rng.pick(&[0, 1, 3, 6, 10, 15])
        }
    }
}
