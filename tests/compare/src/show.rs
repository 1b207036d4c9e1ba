//! Showing a difference: the request in hex and both answers.

/// Longer lines are shown around the first difference.
const LINE: usize = 400;

pub fn hex(bytes: &[u8]) -> String {
    bytes.iter().map(|byte| format!("{byte:02x}")).collect()
}

/// Both answers line by line; equal lines once, unlike ones under each other.
fn lines(expected: &str, found: &str) -> String {
    let mut text = String::new();
    let (mut expected, mut found) = (expected.lines(), found.lines());
    loop {
        match (expected.next(), found.next()) {
            (None, None) => return text,
            (Some(line), Some(other)) if line == other => text += &format!("  both     {}\n", clipped(line, 0)),
            (line, other) => {
                let (line, other) = (line.unwrap_or("(nothing)"), other.unwrap_or("(nothing)"));
                let at = line.bytes().zip(other.bytes()).take_while(|(a, b)| a == b).count();
                text += &format!("  expected {}\n  found    {}\n", clipped(line, at), clipped(other, at));
            }
        }
    }
}

/// A line, or its part around a byte if it is long.
fn clipped(line: &str, at: usize) -> String {
    if line.len() <= LINE {
        return line.to_string();
    }
    let from = at.saturating_sub(LINE / 2).min(line.len() - LINE);
    format!("...[{from}] {}... ({} bytes)", &line[from..from + LINE], line.len())
}

/// The whole message about one difference.
pub fn difference(what: &str, request: &[u8], expected: &str, found: &str) -> String {
    format!("difference at {what}\nrequest {}\n{}", hex(request), lines(expected, found))
}
