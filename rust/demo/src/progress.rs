//! A line on standard error that says how far the work has come.
use std::io::Write;
use std::os::raw::c_int;

/// A line that is written again in its place. Where it fails to be written, the work goes on without it.
pub struct Progress<W: Write> {
    to: W,
    on: bool,
    width: usize,
}

impl<W: Write> Progress<W> {
    /// Writes nothing unless `on`.
    pub fn new(to: W, on: bool) -> Progress<W> {
        Progress { to, on, width: 0 }
    }

    /// Shows a text in place of the one before; spaces cover what is left of that.
    pub fn show(&mut self, text: &str) {
        if self.on {
            self.write(&format!("\r{text:<width$}", width = self.width));
            self.width = text.len();
        }
    }

    /// Leaves the line empty, with the cursor at its start.
    pub fn clear(&mut self) {
        if self.width > 0 {
            self.write(&format!("\r{:width$}\r", "", width = self.width));
            self.width = 0;
        }
    }

    fn write(&mut self, text: &str) {
        let _ = self.to.write_all(text.as_bytes()).and_then(|()| self.to.flush());
    }
}

/// Whatever ends the work early leaves the line empty for what it has to say.
impl<W: Write> Drop for Progress<W> {
    fn drop(&mut self) {
        self.clear();
    }
}

extern "C" {
    fn isatty(descriptor: c_int) -> c_int;
}

/// Whether standard error is a terminal. (std::io::IsTerminal is newer than the oldest compiler that this builds with.)
pub fn stderr_is_terminal() -> bool {
    // SAFETY: isatty takes any number, has no pointers, and changes nothing but errno.
    unsafe { isatty(2) == 1 }
}

#[cfg(test)]
mod tests {
    use super::*;

    #[test]
    fn a_shorter_text_covers_a_longer_one() {
        let mut progress = Progress::new(Vec::new(), true);
        for text in ["long", "ab", "c"] {
            progress.show(text);
        }
        progress.clear();
        progress.clear();
        assert_eq!(progress.to, b"\rlong\rab  \rc \r \r");
    }

    #[test]
    fn the_line_is_left_empty_at_the_end() {
        let mut written = Vec::new();
        Progress::new(&mut written, true).show("ab");
        assert_eq!(written, b"\rab\r  \r");
    }

    #[test]
    fn nothing_is_written_unless_on() {
        let mut progress = Progress::new(Vec::new(), false);
        progress.show("text");
        progress.clear();
        assert_eq!(progress.to, b"");
    }
}
