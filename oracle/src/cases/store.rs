// The stored form: parts one after another, each behind a line with its length in bytes.

use std::io;
use std::path::Path;

use super::Case;
use crate::text;

/// Writes the three files of the stored list into a folder.
pub fn write_all(cases: &[Case], folder: &Path) -> io::Result<()> {
    let (mut names, mut input, mut output) = (String::new(), Vec::new(), Vec::new());
    for case in cases {
        let answer = text::run(&case.text).map_err(|stopped| io::Error::other(stopped.message))?;
        names.push_str(&case.name);
        names.push('\n');
        write_part(&mut input, &case.text);
        write_part(&mut output, &answer);
    }
    std::fs::write(folder.join("cases.names"), names)?;
    std::fs::write(folder.join("cases.in"), input)?;
    std::fs::write(folder.join("cases.out"), output)
}

fn write_part(file: &mut Vec<u8>, part: &[u8]) {
    file.extend_from_slice(format!("{}\n", part.len()).as_bytes());
    file.extend_from_slice(part);
}

/// The parts of a stored file; nothing if it is not in the stored form.
pub fn read_parts(mut file: &[u8]) -> Option<Vec<Vec<u8>>> {
    let mut parts = Vec::new();
    while !file.is_empty() {
        let newline = file.iter().position(|byte| *byte == b'\n')?;
        let length: usize = std::str::from_utf8(&file[..newline]).ok()?.parse().ok()?;
        let rest = &file[newline + 1..];
        if rest.len() < length {
            return None;
        }
        parts.push(rest[..length].to_vec());
        file = &rest[length..];
    }
    Some(parts)
}
