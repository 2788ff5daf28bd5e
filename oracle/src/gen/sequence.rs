// Random call sequences: adding, starting, asking, planning and withdrawing in any order, with refused calls in between.

use super::rng::Rng;
use super::scene::{trigger, Scene};
use crate::added::{HELD_ROWS, PLAN_REQUESTS, POOL_ROWS, RECORD};
use crate::calls::{Add, Call, Kind, Request};

pub fn calls(rng: &mut Rng) -> Vec<Call> {
    let (scene, heavy) = Scene::any(rng);
    calls_on(rng, &scene, heavy)
}

/// Calls over so few numbers that most of them meet.
pub fn tight_calls(rng: &mut Rng) -> Vec<Call> {
    let cells = rng.between(2, 5);
    let scene = Scene::random(rng, cells);
    calls_on(rng, &scene, false)
}

fn calls_on(rng: &mut Rng, scene: &Scene, heavy: bool) -> Vec<Call> {
    let mut calls = Vec::new();
    calls.extend(scene.wide_pools(rng).into_iter().map(Call::Add));
    if heavy {
        fill(rng, scene, &mut calls);
    }
    for _ in 0..rng.between(0, 12) {
        calls.push(Call::Add(any_add(rng, scene)));
    }
    if rng.chance(90) {
        calls.push(Call::Start);
    }
    for _ in 0..rng.between(1, if heavy { 40 } else { 16 }) {
        let call = later(rng, scene, &calls);
        let restart = matches!(call, Call::Add(_)) && rng.chance(60);
        calls.push(call);
        if restart {
            calls.push(Call::Start);
        }
    }
    calls
}

/// A call once things have started: mostly requests, sometimes withdrawals, more pools and holds, then a new start.
fn later(rng: &mut Rng, scene: &Scene, before: &[Call]) -> Call {
    match rng.below(100) {
        0..=2 => Call::Start,
        3..=6 => Call::Add(any_add(rng, scene)),
        7..=12 => plan(rng, scene),
        13..=30 => Call::OfKind(any_request(rng, scene)),
        31..=38 => withdraw(rng, scene, before),
        _ => Call::Request(any_request(rng, scene)),
    }
}

fn any_add(rng: &mut Rng, scene: &Scene) -> Add {
    let kind = scene.kind(rng);
    match rng.below(20) {
        0 | 1 => pair(rng, scene),
        2..=7 => scene.hold(rng, kind),
        _ => scene.pool(rng, kind),
    }
}

fn pair(rng: &mut Rng, scene: &Scene) -> Add {
    Add::Pair {
        owner: scene.owner(rng),
        controller: scene.controller(rng),
        input: scene.ruler(Kind::Input).point(rng),
        host: scene.ruler(Kind::Host).point(rng),
        trigger: trigger(rng),
    }
}

fn any_request(rng: &mut Rng, scene: &Scene) -> Request {
    let (kind, mixed) = (scene.kind(rng), rng.chance(70));
    scene.want(rng, kind, mixed)
}

fn plan(rng: &mut Rng, scene: &Scene) -> Call {
    let length = match rng.below(30) {
        0 => rng.between(PLAN_REQUESTS as u64 - 1, PLAN_REQUESTS as u64 + 2),
        _ => rng.below(6),
    };
    let requests: Vec<Request> = (0..length).map(|_| any_request(rng, scene)).collect();
    let need = RECORD * requests.len();
    let results = match rng.below(10) {
        0 => need.saturating_sub(1),
        1 => need + 3,
        _ => need,
    };
    Call::Plan { requests, results }
}

/// Mostly of somebody who has asked; 7 never does.
fn withdraw(rng: &mut Rng, scene: &Scene, before: &[Call]) -> Call {
    let asked = |call: &Call| match call {
        Call::Request(request) | Call::OfKind(request) => Some(request.requester),
        Call::Plan { requests, .. } => requests.first().map(|request| request.requester),
        _ => None,
    };
    let some: Vec<u32> = before.iter().filter_map(asked).collect();
    let requester = match rng.below(25) {
        0 => rng.pick(&[0, 7, u32::MAX - 1]),
        1..=20 if !some.is_empty() => rng.pick(&some),
        _ => scene.owner(rng),
    };
    Call::Withdraw { requester }
}

fn fill(rng: &mut Rng, scene: &Scene, calls: &mut Vec<Call>) {
    let kind = scene.kind(rng);
    let adds = if rng.chance(50) {
        let (fixed, rows) = (rng.chance(50), rng.between(POOL_ROWS as u64 - 2, POOL_ROWS as u64 + 2));
        scene.many_pools(rng, kind, fixed, rows)
    } else {
        let rows = rng.between(HELD_ROWS as u64 - 3, HELD_ROWS as u64 + 2);
        scene.many_holds(rng, kind, rows)
    };
    calls.extend(adds.into_iter().map(Call::Add));
}
