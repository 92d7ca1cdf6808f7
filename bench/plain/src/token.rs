//! Tokens: runs of letters, runs of digits, and single bytes.

#[derive(Clone, Copy, Debug)]
pub enum Kind<'a> {
    Word(&'a [u8]),
    Digits(&'a [u8]),
    Byte(u8),
}

#[derive(Clone, Copy, Debug)]
pub struct Token<'a> {
    pub kind: Kind<'a>,
    pub place: usize,
}

/// The tokens of a line, one after another.
#[derive(Clone, Copy, Debug)]
pub struct Tokens<'a> {
    text: &'a [u8],
    at: usize,
}

impl<'a> Tokens<'a> {
    pub fn new(text: &'a [u8]) -> Self {
        Tokens { text, at: 0 }
    }

    /// The length of the whole text.
    pub fn text_len(&self) -> usize {
        self.text.len()
    }

    fn run(&mut self, belongs: impl Fn(&u8) -> bool) -> &'a [u8] {
        let rest = &self.text[self.at..];
        let length = rest.iter().position(|b| !belongs(b)).unwrap_or(rest.len());
        self.at += length;
        &rest[..length]
    }
}

impl<'a> Iterator for Tokens<'a> {
    type Item = Token<'a>;

    fn next(&mut self) -> Option<Token<'a>> {
        self.run(|&b| b == b' ');
        let place = self.at;
        let kind = match *self.text.get(place)? {
            b if b.is_ascii_alphabetic() => Kind::Word(self.run(u8::is_ascii_alphabetic)),
            b if b.is_ascii_digit() => Kind::Digits(self.run(u8::is_ascii_digit)),
            b => {
                self.at += 1;
                Kind::Byte(b)
            }
        };
        Some(Token { kind, place })
    }
}
