//! Showing a difference: the script made small, and what either side writes.

use super::sides::{ours, theirs};
use super::{lines, Plan};
use std::io::{self, Write};

/// Shows a small script with what either side writes.
pub fn tell(small: &[u8], tries: u64, plan: &Plan, output: &mut dyn Write) -> io::Result<()> {
    let (here, there) = (ours(small), theirs(plan.driver, small)?);
    let count = lines(small).len();
    writeln!(output, "the smallest script found, {} lines after {} tries:", count, tries)?;
    output.write_all(small)?;
    if !small.ends_with(b"\n") {
        writeln!(output, "(no newline)")?;
    }
    writeln!(output, "the oracle writes:\n{}", here.lines.join("\n"))?;
    writeln!(output, "the driver writes:\n{}", there.text())?;
    if let Some(at) = there.first_difference(&here) {
        writeln!(output, "they differ first at line {} of the answers", at + 1)?;
    }
    Ok(())
}
