// Broken answers to one request.

use super::{address, aside, face, one, record_at, Broken};
use crate::added;
use crate::calls::{no, Add, Answer, Call, Choice, Hold, Kind, Need, Place, PlanAnswer, Refusal, Row};
use crate::compare::face::{judged, Answers};
use crate::compare::Way;
use crate::judge::Judge;

pub const ALL: [Broken; 11] = [
    Broken { name: "names the last overlapping row", way: Way::Calls, face: face::<NamesLast> },
    Broken { name: "forgets alignment", way: Way::Calls, face: face::<ForgetsAlignment> },
    Broken { name: "merges neighbouring pools", way: Way::Calls, face: face::<MergesPools> },
    Broken { name: "takes the width's largest number", way: Way::Calls, face: face::<TakesLargest> },
    Broken { name: "an automatic Shared input joins a holder", way: Way::Calls, face: face::<JoinsHolder> },
    Broken { name: "keeps LPIs by ITS", way: Way::Calls, face: face::<LpisByIts> },
    Broken { name: "tries the next device", way: Way::Calls, face: face::<NextDevice> },
    Broken { name: "Full before Conflict", way: Way::Calls, face: face::<FullFirst> },
    Broken { name: "events answer in namespace 6", way: Way::Calls, face: face::<WrongNamespace> },
    Broken { name: "not shareable before trigger differs", way: Way::Calls, face: face::<SharingFirst> },
    Broken { name: "a granted host IRQ leaves no row", way: Way::Calls, face: face::<NoRow> },
];

#[derive(Default)]
struct NamesLast;

impl Answers for NamesLast {
    fn call(&mut self, judge: &mut Judge, call: &Call, lent: usize) -> PlanAnswer {
        let before = judge.tables().clone();
        let mut answer = judged(judge, call, lent);
        if let (Call::Request(request), Answer::Refused(refusal)) = (call, &mut answer.answer) {
            if let (Some((kind, size, _, Choice::Fixed(base))), no::CONFLICT) = (address(&request.need), refusal.number)
            {
                let meets = |row: &&Row| row.start < base.saturating_add(size) && base < row.end;
                refusal.owner = before.of(Place::Owner, kind).iter().rev().find(meets).map_or(0, |row| row.owner);
            }
        }
        answer
    }
}

#[derive(Default)]
struct ForgetsAlignment;

impl Answers for ForgetsAlignment {
    fn call(&mut self, judge: &mut Judge, call: &Call, lent: usize) -> PlanAnswer {
        let mut call = call.clone();
        if let Call::Request(request) = &mut call {
            match &mut request.need {
                Need::Mmio { alignment, .. } if alignment.is_power_of_two() => *alignment = 1,
                Need::Pio { alignment, .. } if alignment.is_power_of_two() => *alignment = 1,
                _ => {}
            }
        }
        judged(judge, &call, lent)
    }
}

#[derive(Default)]
struct MergesPools {
    log: Vec<Add>,
}

impl Answers for MergesPools {
    fn fresh(&mut self) {
        self.log.clear();
    }

    fn call(&mut self, judge: &mut Judge, call: &Call, lent: usize) -> PlanAnswer {
        if let Call::Add(add) = call {
            self.log.push(add.clone());
        }
        let answer = judged(judge, call, lent);
        let (Call::Request(request), Answer::Refused(refusal)) = (call, &answer.answer) else { return answer };
        let Some((Kind::Mmio, ..)) = address(&request.need) else { return answer };
        if refusal.number != no::EXHAUSTED {
            return answer;
        }
        let more = merged(judge.tables().of(Place::Auto, Kind::Mmio));
        one(aside(&self.log, &more, judge.tables(), |_, _| true).request(request))
    }
}

/// One pool over each two rows that touch or overlap.
fn merged(rows: &[Row]) -> Vec<Add> {
    let joined = rows.windows(2).filter(|two| two[1].start <= two[0].end);
    let pool = |two: &[Row]| Add::Pool {
        fixed: false,
        range: crate::calls::PoolRange::Mmio(two[0].start..two[0].end.max(two[1].end)),
    };
    joined.map(pool).collect()
}

#[derive(Default)]
struct TakesLargest;

impl Answers for TakesLargest {
    fn call(&mut self, judge: &mut Judge, call: &Call, lent: usize) -> PlanAnswer {
        let answer = judged(judge, call, lent);
        let (Call::Request(request), Answer::Refused(refusal)) = (call, &answer.answer) else { return answer };
        let Some((kind, size, alignment, Choice::Fixed(base))) = address(&request.need) else { return answer };
        let most = if kind == Kind::Pio { u64::from(u16::MAX) } else { u64::MAX };
        let last = base.checked_add(size.saturating_sub(1)) == Some(most) && base % alignment.max(1) == 0;
        let holds = |row: &Row| row.end == most && row.start <= base;
        if refusal.number == no::FIXED_NOT_ALLOWED && last && judge.tables().of(Place::Fixed, kind).iter().any(holds) {
            return one(Answer::Granted(record_at(request, base)));
        }
        answer
    }
}

#[derive(Default)]
struct JoinsHolder;

impl Answers for JoinsHolder {
    fn call(&mut self, judge: &mut Judge, call: &Call, lent: usize) -> PlanAnswer {
        let before = judge.tables().clone();
        let answer = judged(judge, call, lent);
        let Call::Request(request) = call else { return answer };
        let Need::Input { controller, trigger, sharing: 1, input: Choice::Auto } = request.need else { return answer };
        let least = match &answer.answer {
            Answer::Granted(record) => record[4],
            Answer::Refused(refusal) if refusal.number == no::EXHAUSTED => u64::MAX,
            _ => return answer,
        };
        let pooled = |number: u64| {
            let holds = |row: &Row| row.domain[0] == controller && row.start <= number && number < row.end;
            before.of(Place::Auto, Kind::Input).iter().any(holds)
        };
        let suits =
            |row: &&Row| row.domain[0] == controller && row.trigger == trigger && row.sharing == 1 && row.start < least;
        let joined = before.of(Place::Owner, Kind::Input).iter().filter(suits).find(|row| pooled(row.start));
        joined.map_or(answer, |row| one(Answer::Granted(record_at(request, row.start))))
    }
}

#[derive(Default)]
struct LpisByIts {
    log: Vec<Add>,
}

impl Answers for LpisByIts {
    fn fresh(&mut self) {
        self.log.clear();
    }

    fn call(&mut self, judge: &mut Judge, call: &Call, lent: usize) -> PlanAnswer {
        if let Call::Add(add) = call {
            self.log.push(add.clone());
        }
        let before = judge.tables().clone();
        let answer = judged(judge, call, lent);
        let Call::Request(request) = call else { return answer };
        let (Need::Msi { its, .. }, Answer::Granted(_)) = (&request.need, &answer.answer) else { return answer };
        // Each grant adds one row to the device table and one to the LPI table.
        let held = before.of(Place::Held, Kind::Device).len();
        let devices = &before.of(Place::Owner, Kind::Device)[held..];
        let same = |kind: Kind, grant: usize| kind != Kind::Lpi || devices[grant].domain[1] == *its;
        one(aside(&self.log, &[], &before, same).request(request))
    }
}

#[derive(Default)]
struct NextDevice {
    log: Vec<Add>,
}

impl Answers for NextDevice {
    fn fresh(&mut self) {
        self.log.clear();
    }

    fn call(&mut self, judge: &mut Judge, call: &Call, lent: usize) -> PlanAnswer {
        if let Call::Add(add) = call {
            self.log.push(add.clone());
        }
        let answer = judged(judge, call, lent);
        let exhausted = Answer::Refused(Refusal { namespace: 5, ..Refusal::plain(no::EXHAUSTED) });
        let Call::Request(request) = call else { return answer };
        let Need::Msi { controller, its, device: Choice::Auto, .. } = request.need else { return answer };
        if answer.answer != exhausted {
            return answer;
        }
        let mut taken = Vec::new();
        for pool in judge.tables().of(Place::Auto, Kind::Device) {
            for device in (pool.start..pool.end).take(8) {
                let devices = device as u32..device as u32 + 1;
                taken.push(Add::Hold { owner: 99, what: Hold::Device { controller, its, devices } });
                let other = aside(&self.log, &taken, judge.tables(), |_, _| true).request(request);
                if matches!(other, Answer::Granted(_)) {
                    return one(other);
                }
            }
        }
        answer
    }
}

#[derive(Default)]
struct FullFirst;

impl Answers for FullFirst {
    fn call(&mut self, judge: &mut Judge, call: &Call, lent: usize) -> PlanAnswer {
        let mut answer = judged(judge, call, lent);
        if let (Call::Request(request), Answer::Refused(refusal)) = (call, &mut answer.answer) {
            if refusal.number == no::CONFLICT && added::no_room(judge.tables(), request) {
                *refusal = Refusal::plain(no::FULL);
            }
        }
        answer
    }
}

#[derive(Default)]
struct WrongNamespace;

impl Answers for WrongNamespace {
    fn call(&mut self, judge: &mut Judge, call: &Call, lent: usize) -> PlanAnswer {
        let mut answer = judged(judge, call, lent);
        if let Answer::Refused(refusal) = &mut answer.answer {
            if refusal.detail == 6 {
                refusal.namespace = 6;
            }
        }
        answer
    }
}

#[derive(Default)]
struct SharingFirst;

impl Answers for SharingFirst {
    fn call(&mut self, judge: &mut Judge, call: &Call, lent: usize) -> PlanAnswer {
        let mut answer = judged(judge, call, lent);
        if let (Call::Request(request), Answer::Refused(refusal)) = (call, &mut answer.answer) {
            if refusal.detail == 2 && matches!(request.need, Need::Input { sharing: 0, .. }) {
                refusal.detail = 3;
            }
        }
        answer
    }
}

#[derive(Default)]
struct NoRow {
    log: Vec<Add>,
}

impl Answers for NoRow {
    fn fresh(&mut self) {
        self.log.clear();
    }

    fn call(&mut self, judge: &mut Judge, call: &Call, lent: usize) -> PlanAnswer {
        if let Call::Add(add) = call {
            self.log.push(add.clone());
        }
        let taken = added::malformed(judge.tables(), &Kind::ALL).is_none() && lent >= added::RECORD;
        if let (Call::Request(request), true) = (call, taken) {
            if matches!(request.need, Need::Host { irq: Choice::Fixed(_) }) {
                return one(aside(&self.log, &[], judge.tables(), |_, _| true).request(request));
            }
        }
        judged(judge, call, lent)
    }
}
