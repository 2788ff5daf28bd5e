//! The refusals, with words.

use crate::{ANSWER, FIRST_LPI};
use core::fmt;

/// Why a call was refused. Namespaces: 1 MMIO, 2 PIO, 3 input of a controller, 4 host IRQ, 5 an ITS of a controller, 6 LPI of a controller.
/// Details: 1 address ranges overlap, 2 trigger differs, 3 not shareable, 4 host IRQ taken, 5 DeviceID taken, 6 events overlap, 7 LPIs overlap.
#[derive(Clone, Copy, Debug, PartialEq, Eq)]
pub enum Refusal {
    /// The tables are not sound, or the library is not the one that this crate was written for.
    Malformed,
    BadInput,
    BadOwner,
    EmptyRange,
    Reserved {
        owner: u32,
    },
    FixedNotAllowed {
        namespace: u32,
    },
    Exhausted {
        namespace: u32,
    },
    Conflict {
        namespace: u32,
        owner: u32,
        detail: u32,
    },
    Full,
    /// A line that cannot be read, or a text that is too long.
    BadLine,
    /// A list or a buffer is too short, a plan too long, or a pinned text.
    Short,
    /// A range of LPIs, pooled or reserved, starts below [`FIRST_LPI`]. No request is refused so.
    BadLpi,
    /// Nothing is granted to the requester that is to be withdrawn. Reservations are no grants.
    NotFound,
    /// A register of memory is neither of 32 nor of 64 bits.
    BadType,
    /// A register of 64 bits begins at the last word, and has no high half.
    BadPair,
    /// The mask of a register is zero, or its ones are not contiguous from the top.
    BadMask,
    /// A register asks for more ports than 16 bits can say.
    PortsTooLarge,
}

impl Refusal {
    /// The refusal that an answer's five numbers (number, index, namespace, owner, detail) say. A number that is not known is no answer: Malformed.
    pub(crate) fn of(answer: &[u64; ANSWER]) -> Result<(), Refusal> {
        let [_, _, namespace, owner, detail] = answer.map(|n| n as u32);
        Err(match answer[0] {
            0 => return Ok(()),
            2 => Refusal::BadInput,
            3 => Refusal::BadOwner,
            4 => Refusal::EmptyRange,
            5 => Refusal::Reserved { owner },
            6 => Refusal::FixedNotAllowed { namespace },
            7 => Refusal::Exhausted { namespace },
            8 => Refusal::Conflict {
                namespace,
                owner,
                detail,
            },
            9 => Refusal::Full,
            10 => Refusal::BadLine,
            11 => Refusal::Short,
            12 => Refusal::BadLpi,
            13 => Refusal::NotFound,
            14 => Refusal::BadType,
            15 => Refusal::BadPair,
            16 => Refusal::BadMask,
            17 => Refusal::PortsTooLarge,
            _ => Refusal::Malformed,
        })
    }

    /// Its number.
    pub const fn number(&self) -> u32 {
        match self {
            Refusal::Malformed => 1,
            Refusal::BadInput => 2,
            Refusal::BadOwner => 3,
            Refusal::EmptyRange => 4,
            Refusal::Reserved { .. } => 5,
            Refusal::FixedNotAllowed { .. } => 6,
            Refusal::Exhausted { .. } => 7,
            Refusal::Conflict { .. } => 8,
            Refusal::Full => 9,
            Refusal::BadLine => 10,
            Refusal::Short => 11,
            Refusal::BadLpi => 12,
            Refusal::NotFound => 13,
            Refusal::BadType => 14,
            Refusal::BadPair => 15,
            Refusal::BadMask => 16,
            Refusal::PortsTooLarge => 17,
        }
    }
}

fn namespace_words(namespace: u32) -> &'static str {
    match namespace {
        1 => "memory",
        2 => "ports",
        3 => "inputs of a controller",
        4 => "host IRQs",
        5 => "an ITS of a controller",
        6 => "LPIs of a controller",
        _ => "nothing known",
    }
}

fn detail_words(detail: u32) -> &'static str {
    match detail {
        1 => "the address ranges overlap",
        2 => "the trigger differs",
        3 => "it is not shareable",
        4 => "the host IRQ is taken",
        5 => "the DeviceID is taken",
        6 => "the events overlap",
        7 => "the LPIs overlap",
        _ => "no detail known",
    }
}

impl fmt::Display for Refusal {
    /// ```
    /// use thurgoleo::Refusal;
    /// let refusal = Refusal::Conflict { namespace: 4, owner: 9, detail: 4 };
    /// assert_eq!(refusal.to_string(), "owner 9 stands in the way among host IRQs: the host IRQ is taken");
    /// assert_eq!(Refusal::BadLpi.to_string(), "a range of LPIs starts below 8192");
    /// assert_eq!(Refusal::NotFound.to_string(), "nothing is granted to the requester");
    /// assert_eq!(Refusal::BadPair.to_string(), "a register of 64 bits begins at the last word");
    /// ```
    fn fmt(&self, f: &mut fmt::Formatter<'_>) -> fmt::Result {
        match *self {
            Refusal::Malformed => {
                f.write_str("the tables are not sound, or the library is of another size")
            }
            Refusal::BadInput => f.write_str("a number or a code makes no sense"),
            Refusal::BadOwner => f.write_str("owner 0 is nobody"),
            Refusal::EmptyRange => f.write_str("a range holds no number"),
            Refusal::Reserved { owner } => write!(f, "owner {owner} has reserved some of it"),
            Refusal::FixedNotAllowed { namespace } => write!(
                f,
                "the number asked for is not allowed among {}",
                namespace_words(namespace)
            ),
            Refusal::Exhausted { namespace } => write!(
                f,
                "nothing that fits is free among {}",
                namespace_words(namespace)
            ),
            Refusal::Conflict {
                namespace,
                owner,
                detail,
            } => {
                write!(
                    f,
                    "owner {owner} stands in the way among {}: {}",
                    namespace_words(namespace),
                    detail_words(detail)
                )
            }
            Refusal::Full => f.write_str("a table is full"),
            Refusal::BadLine => f.write_str("the line cannot be read"),
            Refusal::Short => f.write_str("a list is too short, or a plan too long"),
            Refusal::BadLpi => write!(f, "a range of LPIs starts below {FIRST_LPI}"),
            Refusal::NotFound => f.write_str("nothing is granted to the requester"),
            Refusal::BadType => f.write_str("a register of memory is neither of 32 nor of 64 bits"),
            Refusal::BadPair => f.write_str("a register of 64 bits begins at the last word"),
            Refusal::BadMask => f.write_str(
                "the mask of a register is zero, or its ones are not contiguous from the top",
            ),
            Refusal::PortsTooLarge => f.write_str("a register asks for 65,536 ports or more"),
        }
    }
}

impl core::error::Error for Refusal {}
