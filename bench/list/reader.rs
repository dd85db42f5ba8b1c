//! Reads a text from the front: its bytes, lines, signs and blocks. The reader stands at a word or at the end of a
//! line, since behind each word it goes over the spaces.

use crate::ledger::Ledger;

/// What is read, or none where the text is not of the grammar.
pub type Read<T> = Option<T>;

pub struct Reader<'l> {
    pub text: &'static str,
    pub at: usize,
    pub line: u32,
    pub file: u16,
    /// Whether every day and number of the block is one that a ledger may hold.
    pub is_in_range: bool,
    pub ledger: &'l mut Ledger,
}

/// What stands at the front behind the end of a line.
#[derive(Clone, Copy, Debug, PartialEq, Eq)]
pub enum Front {
    /// A word in column one.
    Block,
    /// An indented word.
    Line,
    End,
}

impl<'l> Reader<'l> {
    pub fn new(text: &'static str, file: u16, ledger: &'l mut Ledger) -> Self {
        Reader { text, at: 0, line: 1, file, is_in_range: true, ledger }
    }

    // Bytes and lines.

    #[inline]
    pub fn bytes(&self) -> &'static [u8] {
        self.text.as_bytes()
    }

    #[inline]
    pub fn rest(&self) -> &'static [u8] {
        &self.bytes()[self.at..]
    }

    /// The byte at the front; 0 where there is none.
    #[inline]
    pub fn byte(&self) -> u8 {
        self.bytes().get(self.at).copied().unwrap_or(0)
    }

    /// The byte behind that.
    #[inline]
    pub fn byte_behind(&self) -> u8 {
        self.bytes().get(self.at + 1).copied().unwrap_or(0)
    }

    #[inline]
    pub fn is_at_text_end(&self) -> bool {
        self.at >= self.text.len()
    }

    #[inline]
    pub fn spaces(&mut self) {
        while matches!(self.byte(), b' ' | b'\t' | b'\r') {
            self.at += 1;
        }
    }

    /// Where the bytes of a class end.
    #[inline]
    pub fn run(&self, start: usize, class: &[bool; 256]) -> usize {
        let bytes = &self.bytes()[start..];
        start + bytes.iter().take_while(|b| class[**b as usize]).count()
    }

    /// Goes to the end of the line.
    fn skip_line(&mut self) {
        let rest = self.rest();
        self.at += rest.iter().position(|b| *b == b'\n').unwrap_or(rest.len());
    }

    /// Whether the line ends here.
    #[inline]
    pub fn is_at_end(&self) -> bool {
        match self.byte() {
            b'\n' | b';' => true,
            0 => self.is_at_text_end(),
            _ => false,
        }
    }

    /// Nothing more stands in the line but a comment.
    #[inline]
    pub fn end(&mut self) -> Read<()> {
        match self.byte() {
            b'\n' => return Some(()),
            b';' => self.skip_line(),
            _ if self.is_at_text_end() => {}
            _ => return None,
        }
        Some(())
    }

    /// Goes from the start of a line over white space, comments and lines that are skipped to the next word.
    #[inline]
    pub fn front(&mut self) -> Front {
        loop {
            let start = self.at;
            if matches!(self.byte(), b'*' | b':' | b'#') {
                self.skip_line();
            }
            self.spaces();
            if self.byte() == b';' {
                self.skip_line();
            }
            if self.is_at_text_end() {
                return Front::End;
            }
            if self.byte() != b'\n' {
                return if self.at == start { Front::Block } else { Front::Line };
            }
            self.go_over_line_feed();
        }
    }

    #[inline]
    fn go_over_line_feed(&mut self) {
        self.at += 1;
        self.line += 1;
    }

    /// Goes from the end of a line to what stands behind it.
    #[inline]
    pub fn next(&mut self) -> Front {
        if self.is_at_text_end() {
            return Front::End;
        }
        self.go_over_line_feed();
        self.front()
    }

    /// Goes on behind a block that begins here, whatever stands in it.
    pub fn skip_block(&mut self) -> Front {
        loop {
            match self.byte() {
                b'"' => self.skip_text(),
                b';' => self.skip_line(),
                b'\n' => match self.next() {
                    Front::Line => {}
                    front => return front,
                },
                _ if self.is_at_text_end() => return Front::End,
                _ => self.at += 1,
            }
        }
    }

    /// Goes behind a text that may have unknown escapes, or to the end where it isn't closed.
    fn skip_text(&mut self) {
        self.at += 1;
        loop {
            match self.byte() {
                b'"' => return self.at += 1,
                b'\n' => self.go_over_line_feed(),
                b'\\' => {
                    self.at += 1;
                    if self.byte() == b'\n' {
                        self.line += 1;
                    }
                    self.at += 1;
                }
                _ => self.at += 1,
            }
            if self.is_at_text_end() {
                return self.at = self.text.len();
            }
        }
    }
}
