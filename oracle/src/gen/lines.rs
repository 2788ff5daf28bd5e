// Writes calls as lines of a plan text. Calls that a text cannot say have no line.

use std::fmt::Display;
use std::ops::Range;

use crate::calls::{Add, Choice, Hold, Need, PoolRange, Request};

pub fn line_of_add(add: &Add) -> Option<String> {
    let mode = |fixed: &bool| if *fixed { "fixed" } else { "auto" };
    Some(match add {
        Add::Pool { fixed, range } => format!("pool\t{}\t{}", mode(fixed), pool(range)),
        Add::Domain { fixed, controller, its, devices, events, lpis } => {
            let bounds = format!("{}\t{}\t{}", span(devices), span(events), span(lpis));
            format!("pool\t{}\tmsi\t{controller}\t{its}\t{bounds}", mode(fixed))
        }
        Add::Hold { owner, what } => format!("hold\t{owner}\t{}", hold(what)),
        Add::Pair { .. } => return None,
    })
}

pub fn line_of_request(request: &Request) -> Option<String> {
    Some(format!("want\t{}\t{}\t{}", request.requester, request.slot, need(&request.need)?))
}

fn pool(range: &PoolRange) -> String {
    match range {
        PoolRange::Mmio(r) => format!("mmio\t{}", span(r)),
        PoolRange::Pio(r) => format!("pio\t{}", span(r)),
        PoolRange::Host(r) => format!("host\t{}", span(r)),
        PoolRange::Input { controller, inputs } => format!("input\t{controller}\t{}", span(inputs)),
    }
}

fn hold(what: &Hold) -> String {
    match what {
        Hold::Mmio(r) => format!("mmio\t{}", span(r)),
        Hold::Pio(r) => format!("pio\t{}", span(r)),
        Hold::Host(r) => format!("host\t{}", span(r)),
        Hold::Input { controller, input, trigger, sharing } => {
            format!("input\t{controller}\t{input}\t{trigger}\t{sharing}")
        }
        Hold::Device { controller, its, devices } => format!("device\t{controller}\t{its}\t{}", span(devices)),
        Hold::Event { controller, its, device, events } => {
            format!("event\t{controller}\t{its}\t{device}\t{}", span(events))
        }
        Hold::Lpi { controller, lpis } => format!("lpi\t{controller}\t{}", span(lpis)),
    }
}

fn need(need: &Need) -> Option<String> {
    Some(match need {
        Need::Mmio { size, alignment, base } => format!("mmio\t{size}\t{alignment}\t{}", choice(base)),
        Need::Pio { size, alignment, base } => format!("pio\t{size}\t{alignment}\t{}", choice(base)),
        Need::Input { controller, trigger, sharing, input } => {
            format!("input\t{controller}\t{trigger}\t{sharing}\t{}", choice(input))
        }
        Need::Host { irq } => format!("host\t{}", choice(irq)),
        Need::Msi { controller, its, count, device, event, lpi } => {
            let choices = match (device, event, lpi) {
                (Choice::Auto, Choice::Auto, Choice::Auto) => "auto".to_string(),
                (Choice::Fixed(d), Choice::Fixed(e), Choice::Fixed(l)) => format!("{d}\t{e}\t{l}"),
                _ => return None,
            };
            format!("msi\t{controller}\t{its}\t{count}\t{choices}")
        }
    })
}

fn span<T: Display>(range: &Range<T>) -> String {
    format!("{}\t{}", range.start, range.end)
}

fn choice<T: Display>(choice: &Choice<T>) -> String {
    match choice {
        Choice::Auto => "auto".to_string(),
        Choice::Fixed(number) => number.to_string(),
    }
}
