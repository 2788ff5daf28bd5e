// 01's stand cases P1 to P10 as typed calls, the answers written by hand.

use oracle::calls::{Add, Answer, Choice, Hold, Need, PoolRange, Refusal, Request};
use oracle::judge::Judge;

fn stand(adds: &[Add]) -> Judge {
    let mut judge = Judge::fresh();
    for add in adds {
        assert_eq!(judge.add(add), Answer::Accepted, "{add:?}");
    }
    judge.start();
    judge
}

fn auto_pool(range: PoolRange) -> Add {
    Add::Pool { fixed: false, range }
}

fn fixed_pool(range: PoolRange) -> Add {
    Add::Pool { fixed: true, range }
}

fn hold(owner: u32, what: Hold) -> Add {
    Add::Hold { owner, what }
}

fn ask(judge: &mut Judge, need: Need) -> Answer {
    judge.request(&Request { requester: 3, slot: 1, need })
}

fn mmio(size: u64, alignment: u64, base: Choice<u64>) -> Need {
    Need::Mmio { size, alignment, base }
}

fn msi(count: u32) -> Need {
    Need::Msi { controller: 0, its: 0, count, device: Choice::Auto, event: Choice::Auto, lpi: Choice::Auto }
}

fn msi_pool() -> Add {
    Add::Domain { fixed: false, controller: 0, its: 0, devices: 8..10, events: 0..4, lpis: 8192..8200 }
}

/// A grant to requester 3, slot 1.
fn granted(kind: u64, numbers: &[u64]) -> Answer {
    let mut record = [0; 9];
    record[..3].copy_from_slice(&[kind, 3, 1]);
    record[3..3 + numbers.len()].copy_from_slice(numbers);
    Answer::Granted(record)
}

fn refused(number: u32, namespace: u32, owner: u32, detail: u32) -> Answer {
    Answer::Refused(Refusal { number, namespace, owner, detail })
}

#[test]
fn p1() {
    let mut judge = stand(&[auto_pool(PoolRange::Mmio(0x1000..0x3000)), hold(7, Hold::Mmio(0x1000..0x2000))]);
    assert_eq!(ask(&mut judge, mmio(0x100, 0x100, Choice::Auto)), granted(1, &[0x2000, 0x100]));
}

#[test]
fn p2() {
    let mut judge = stand(&[auto_pool(PoolRange::Mmio(0x1000..0x2000)), auto_pool(PoolRange::Mmio(0x2000..0x3000))]);
    assert_eq!(ask(&mut judge, mmio(0x1800, 0x1000, Choice::Auto)), refused(7, 1, 0, 0));
}

#[test]
fn p3() {
    let mut judge = stand(&[
        fixed_pool(PoolRange::Mmio(0..0x8000)),
        hold(9, Hold::Mmio(0x3000..0x4000)),
        hold(4, Hold::Mmio(0x1000..0x2000)),
    ]);
    assert_eq!(ask(&mut judge, mmio(0x3000, 0x1000, Choice::Fixed(0x1000))), refused(8, 1, 9, 1));
}

#[test]
fn p4() {
    let mut judge = stand(&[auto_pool(PoolRange::Host(40..42)), hold(7, Hold::Host(40..41))]);
    assert_eq!(ask(&mut judge, Need::Host { irq: Choice::Auto }), granted(4, &[41]));
    assert_eq!(ask(&mut judge, Need::Host { irq: Choice::Auto }), refused(7, 4, 0, 0));
}

#[test]
fn p5() {
    let top = u64::MAX - 4095;
    let pool = [auto_pool(PoolRange::Mmio(top..u64::MAX))];
    assert_eq!(ask(&mut stand(&pool), mmio(4095, 4096, Choice::Auto)), granted(1, &[top, 4095]));
    assert_eq!(ask(&mut stand(&pool), mmio(4096, 4096, Choice::Auto)), refused(7, 1, 0, 0));
    assert_eq!(ask(&mut stand(&pool), mmio(4095, 8192, Choice::Auto)), refused(7, 1, 0, 0));
}

#[test]
fn p6() {
    let mut judge = stand(&[fixed_pool(PoolRange::Pio(0xFFF0..0xFFFF))]);
    let pio = |base| Need::Pio { size: 1, alignment: 1, base: Choice::Fixed(base) };
    assert_eq!(ask(&mut judge, pio(0xFFFE)), granted(2, &[0xFFFE, 1]));
    assert_eq!(ask(&mut judge, pio(0xFFFF)), refused(6, 2, 0, 0));
}

#[test]
fn p7() {
    let mut judge = stand(&[
        auto_pool(PoolRange::Input { controller: 0, inputs: 32..34 }),
        hold(7, Hold::Input { controller: 0, input: 32, trigger: 0, sharing: 1 }),
    ]);
    let need = Need::Input { controller: 0, trigger: 0, sharing: 1, input: Choice::Auto };
    assert_eq!(ask(&mut judge, need), granted(3, &[0, 33, 0, 1]));
}

#[test]
fn p8() {
    let mut judge = stand(&[
        fixed_pool(PoolRange::Input { controller: 0, inputs: 32..33 }),
        hold(7, Hold::Input { controller: 0, input: 32, trigger: 0, sharing: 1 }),
    ]);
    let need = |trigger| Need::Input { controller: 0, trigger, sharing: 0, input: Choice::Fixed(32) };
    assert_eq!(ask(&mut judge, need(1)), refused(8, 3, 7, 2));
    assert_eq!(ask(&mut judge, need(0)), refused(8, 3, 7, 3));
}

#[test]
fn p9() {
    let events = Hold::Event { controller: 0, its: 0, device: 8, events: 0..4 };
    let mut judge = stand(&[msi_pool(), hold(7, events)]);
    assert_eq!(ask(&mut judge, msi(1)), refused(7, 5, 0, 0));
}

#[test]
fn p10() {
    let mut judge = stand(&[msi_pool()]);
    assert_eq!(ask(&mut judge, msi(2)), granted(5, &[0, 0, 8, 0, 8192, 2]));
    assert_eq!(ask(&mut judge, msi(2)), granted(5, &[0, 0, 9, 0, 8194, 2]));
}
