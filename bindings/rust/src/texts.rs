//! Plans as texts of lines: answered as the planner's program does, and pinned.

use crate::{raw, Refusal, ANSWER, TEXT, TEXT_OUTPUT};
use core::fmt;

/// What the planner's program answers to a text of lines. The buffer is at least [`TEXT_OUTPUT`] bytes long, whatever the text.
///
/// ```
/// use thurgoleo::{text, Refusal, TEXT_OUTPUT};
/// let mut out = [0; TEXT_OUTPUT];
/// assert_eq!(text(b"", &mut out), Ok(&b"end\t0\n"[..]));
/// assert_eq!(text(b"", &mut out[..100]), Err(Refusal::Short));
/// ```
pub fn text<'a>(lines: &[u8], out: &'a mut [u8]) -> Result<&'a [u8], Refusal> {
    if out.len() < TEXT_OUTPUT {
        return Err(Refusal::Short);
    }
    out[0] = 0; // no output begins so: a library that writes nothing is seen
    let n = raw::text(lines, out) as usize;
    if n == 0 || TEXT_OUTPUT < n || out[0] == 0 {
        return Err(Refusal::Malformed);
    }
    Ok(&out[..n])
}

/// A refused text: at which line, from 1, and why. The line is 0 where none is to blame: the text is longer than [`TEXT`] (BadLine), or its pinned text longer
/// than the buffer or than [`TEXT`] (Short).
#[derive(Clone, Copy, Debug, PartialEq, Eq)]
pub struct TextRefusal {
    pub line: usize,
    pub refusal: Refusal,
}

impl fmt::Display for TextRefusal {
    /// ```
    /// use thurgoleo::pin_text;
    /// let refused = pin_text(b"hold\t0\thost\t1\t2\n", &mut []).unwrap_err();
    /// assert_eq!(refused.to_string(), "line 1: owner 0 is nobody");
    /// let refused = pin_text(b"hold\t9\thost\t1\t2\n", &mut []).unwrap_err();
    /// assert_eq!(refused.to_string(), "the pinned text is too long for its buffer, or for a text");
    /// ```
    fn fmt(&self, f: &mut fmt::Formatter<'_>) -> fmt::Result {
        match (self.line, self.refusal) {
            (0, Refusal::BadLine) => f.write_str("the text is too long"),
            (0, Refusal::Short) => {
                f.write_str("the pinned text is too long for its buffer, or for a text")
            }
            (0, refusal) => write!(f, "{refusal}"),
            (line, refusal) => write!(f, "line {line}: {refusal}"),
        }
    }
}

impl core::error::Error for TextRefusal {}

/// No answer yet: line 0, and Malformed. A library that writes none has refused.
const UNSAID: [u64; ANSWER] = [0, 1, 0, 0, 0];

/// The same text pinned, in front of the buffer, to be kept and run again: it is planned on fresh tables of its own, and every `auto` that a `want` line ends in
/// is replaced by the number granted (of message interrupts by the three); all else is as it was read. A buffer of [`TEXT`] bytes is never too short. A refused
/// text changes no byte of it, an accepted one none behind the bytes handed back.
///
/// The `pool` and `hold` lines of a pinned text, then any of its wants, each at most once, in any order: these wants get the numbers that they had, provided that
/// each automatic pool range lies inside a fixed one.
///
/// ```
/// use thurgoleo::{pin_text, text, Refusal, TextRefusal, TEXT, TEXT_OUTPUT};
/// let board = "pool\tauto\thost\t40\t42\npool\tfixed\thost\t40\t42\n";
/// let plan = format!("{board}want\t7\t0\thost\tauto\nwant\t8\t0\thost\tauto\n");
/// let mut kept = [0; TEXT];
/// let pinned = pin_text(plan.as_bytes(), &mut kept)?;
/// assert_eq!(pinned, format!("{board}want\t7\t0\thost\t40\nwant\t8\t0\thost\t41\n").as_bytes());
///
/// // after a power dip device 8 comes back alone
/// let mut out = [0; TEXT_OUTPUT];
/// let again = format!("{board}want\t8\t0\thost\t41\n");
/// assert_eq!(text(again.as_bytes(), &mut out).unwrap(), b"got\t8\t0\thost\t41\nend\t1\n");
///
/// // a third device is one too many, and says so at its line
/// let plan = format!("{plan}want\t9\t0\thost\tauto\n");
/// let refused = TextRefusal { line: 5, refusal: Refusal::Exhausted { namespace: 4 } };
/// assert_eq!(pin_text(plan.as_bytes(), &mut kept), Err(refused));
/// # Ok::<(), TextRefusal>(())
/// ```
pub fn pin_text<'a>(lines: &[u8], out: &'a mut [u8]) -> Result<&'a [u8], TextRefusal> {
    let mut answer = UNSAID;
    let count = raw::pin_text(lines, out, &mut answer);
    let [line, number, namespace, owner, detail] = answer;
    // a refusal writes nothing and names a line that is there; an empty text alone is written as nothing
    let (room, most) = (out.len() as u64, TEXT as u64);
    match Refusal::of(&[number, line, namespace, owner, detail]) {
        Ok(()) if (count == 0) == lines.is_empty() && count <= room.min(most) => {
            Ok(&out[..count as usize])
        }
        Err(refusal) if count == 0 && line <= lines.len() as u64 => Err(TextRefusal {
            line: line as usize,
            refusal,
        }),
        _ => Err(TextRefusal {
            line: 0,
            refusal: Refusal::Malformed,
        }),
    }
}
