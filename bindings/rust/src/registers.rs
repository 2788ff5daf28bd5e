//! The requests of a PCI device, sized from the words of its base address registers.

use crate::answer::UNSAID;
use crate::{raw, Choice, Refusal, Request, Want, REGISTERS, REQUEST};
use core::{array, iter::Flatten, slice};

/// What the registers of a device ask for, each at its index: at most [`REGISTERS`] requests, for memory and ports. They come in the registers' order, as a
/// [`Plan`](crate::Plan) takes them.
#[derive(Clone, Copy, Debug, PartialEq, Eq)]
pub struct Registers([Option<Request>; REGISTERS]);

impl Registers {
    /// What the register of an index asks for; nothing where there is none: its word is zero, or the high half of the one before.
    pub fn get(&self, index: usize) -> Option<&Request> {
        self.0.get(index)?.as_ref()
    }

    /// The requests, in the registers' order.
    pub fn iter(&self) -> Flatten<slice::Iter<'_, Option<Request>>> {
        self.0.iter().flatten()
    }

    /// So many requests as the library has put into a list. None where it cannot be so: a count that the list does not have, what is no request of a register,
    /// or two of one register.
    fn of(list: &[u64], count: u64) -> Option<Self> {
        let count = usize::try_from(count).ok().filter(|n| *n <= REGISTERS)?;
        let mut registers = [None; REGISTERS];
        for numbers in list.chunks_exact(REQUEST).take(count) {
            let request = automatic(numbers)?;
            let place = registers.get_mut(request.slot as usize)?;
            if place.replace(request).is_some() {
                return None;
            }
        }
        Some(Self(registers))
    }
}

impl<'a> IntoIterator for &'a Registers {
    type Item = &'a Request;
    type IntoIter = Flatten<slice::Iter<'a, Option<Request>>>;

    fn into_iter(self) -> Self::IntoIter {
        self.iter()
    }
}

impl IntoIterator for Registers {
    type Item = Request;
    type IntoIter = Flatten<array::IntoIter<Option<Request>, REGISTERS>>;

    fn into_iter(self) -> Self::IntoIter {
        self.0.into_iter().flatten()
    }
}

/// The automatic request for memory or ports that twelve numbers say. The request must say the same numbers: what is cut off here, or not looked at, is seen.
fn automatic(numbers: &[u64]) -> Option<Request> {
    let (size, alignment) = (numbers[3], numbers[4]);
    let want = match numbers[0] {
        1 => Want::Mmio {
            size,
            alignment,
            choice: Choice::Auto,
        },
        _ => Want::Pio {
            size: size as u16,
            alignment: alignment as u16,
            choice: Choice::Auto,
        },
    };
    let request = Request {
        requester: numbers[1] as u32,
        slot: numbers[2] as u32,
        want,
    };
    (request.numbers() == numbers).then_some(request)
}

/// The automatic requests of a PCI device for a requester, from the words that its base address registers read after all ones were written (PCI Local Bus
/// Specification), that of index 0 first. It needs no planner.
///
/// A word of zero that is no high half is no register. Bit 0 set is ports: the low two bits are cleared, and where the upper 16 bits read zero they are taken as
/// ones. Otherwise it is memory: the low four bits are cleared, and bits 2 and 1 say 32-bit (00) or 64-bit (10, with the next word as the high half, whatever it
/// holds). The size is what is left inverted and one added, the alignment is the size, the slot is the register's index.
///
/// A requester of 0 is BadInput. Then each register in its turn: another type is BadType, a pair at the last word BadPair, a mask of zero or whose ones are not
/// contiguous from the top BadMask, 65,536 ports and more PortsTooLarge; the first fault decides. No request made so is BadInput in a plan.
///
/// ```
/// use thurgoleo::{registers, Choice, Plan, Planner, Pool, Refusal, Request, Use, Want};
/// // 4096 bytes of memory, no second register, 256 ports
/// let reader = registers([0xFFFF_F000, 0, 0xFFFF_FF01, 0, 0, 0], 7)?;
/// let memory = Want::Mmio { size: 4096, alignment: 4096, choice: Choice::Auto };
/// assert_eq!(reader.get(0), Some(&Request { requester: 7, slot: 0, want: memory }));
/// assert_eq!(reader.get(1), None);
/// assert_eq!(reader.iter().count(), 2);
///
/// let mut planner = Planner::new()?;
/// planner.add_pool(Use::Automatic, Pool::Mmio { start: 0x1100, end: 0x9000 })?;
/// planner.add_pool(Use::Automatic, Pool::Pio { start: 0xc010, end: 0xd000 })?;
/// planner.start()?;
/// let mut plan = Plan::new();
/// for request in &reader {
///     plan.push(request)?;
/// }
/// planner.plan(&mut plan).unwrap();
/// assert!(plan.granted().map(|g| g.number()).eq([0x2000, 0xc100]));
///
/// // a word of memory whose type is unknown; ports that are too many
/// assert_eq!(registers([0xFFFF_F002, 0, 0, 0, 0, 0], 7), Err(Refusal::BadType));
/// assert_eq!(registers([0x0000_0001, 0, 0, 0, 0, 0], 7), Err(Refusal::PortsTooLarge));
/// # Ok::<(), Refusal>(())
/// ```
pub fn registers(words: [u32; REGISTERS], requester: u32) -> Result<Registers, Refusal> {
    let (mut made, mut answer) = ([0; REQUEST * REGISTERS], UNSAID);
    let words = words.map(u64::from);
    let count = raw::registers(&words, requester.into(), &mut made, &mut answer);
    match Refusal::of(&answer) {
        Ok(()) => Registers::of(&made, count).ok_or(Refusal::Malformed),
        // a refusal makes none
        Err(refusal) if count == 0 => Err(refusal),
        Err(_) => Err(Refusal::Malformed),
    }
}
