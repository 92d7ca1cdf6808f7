//! From a text to its line, or why and where it is refused.

use crate::line::{AXES, BlockKind, Condition, Line, Op, Relation, Term, Value};
use crate::range::LIMIT;
use crate::refusal::Refusal;
use crate::token::{Kind, Token, Tokens};

pub const MAX_BYTES: usize = 120;
const MAX_DIGITS: usize = 8;
const MAX_LABEL: i32 = 9_999;

type Read<T> = Result<T, Refusal>;

pub fn read(text: &[u8]) -> Read<Line> {
    if text.len() > MAX_BYTES {
        return Err(Refusal::TooLong);
    }
    if let Some(place) = text.iter().position(|b| !(32..=126).contains(b)) {
        return Err(Refusal::Byte(place));
    }
    let mut tokens = Tokens::new(text);
    let Some(first) = tokens.next() else {
        return Ok(Line::Plain);
    };
    let mut reader = Reader { tokens };
    match first.kind {
        Kind::Byte(b'#') => reader.setting(),
        Kind::Word(w) if w.eq_ignore_ascii_case(b"G") => reader.motion(),
        Kind::Word(w) if w.eq_ignore_ascii_case(b"O") => reader.block_line(),
        _ => Err(Refusal::Syntax(first.place)),
    }
}

struct Reader<'a> {
    tokens: Tokens<'a>,
}

impl<'a> Reader<'a> {
    fn too_short(&self) -> Refusal {
        Refusal::Syntax(self.tokens.text_len())
    }

    fn token(&mut self) -> Read<Token<'a>> {
        self.tokens.next().ok_or_else(|| self.too_short())
    }

    fn end(&mut self, line: Line) -> Read<Line> {
        match self.tokens.next() {
            None => Ok(line),
            Some(token) => Err(Refusal::Syntax(token.place)),
        }
    }

    fn byte(&mut self, expected: u8) -> Read<()> {
        let token = self.token()?;
        match token.kind {
            Kind::Byte(b) if b == expected => Ok(()),
            _ => Err(Refusal::Syntax(token.place)),
        }
    }

    fn digits(&mut self, least: i32, most: i32) -> Read<i32> {
        let token = self.token()?;
        match token.kind {
            Kind::Digits(digits) => number(digits, token.place, least, most),
            _ => Err(Refusal::Syntax(token.place)),
        }
    }

    fn register(&mut self) -> Read<usize> {
        Ok(AXES + self.digits(1, 6)? as usize - 1)
    }

    fn term(&mut self) -> Read<Term> {
        let token = self.token()?;
        self.term_from(token)
    }

    fn term_from(&mut self, token: Token) -> Read<Term> {
        match token.kind {
            Kind::Byte(b'#') => Ok(Term::Register(self.register()?)),
            Kind::Byte(b'+') => Ok(Term::Number(self.digits(0, LIMIT)?)),
            Kind::Byte(b'-') => Ok(Term::Number(-self.digits(0, LIMIT)?)),
            Kind::Digits(digits) => Ok(Term::Number(number(digits, token.place, 0, LIMIT)?)),
            _ => Err(Refusal::Syntax(token.place)),
        }
    }

    fn value(&mut self) -> Read<Value> {
        let token = self.token()?;
        if !matches!(token.kind, Kind::Byte(b'[')) {
            return Ok(Value::Bare(self.term_from(token)?));
        }
        let left = self.term()?;
        let token = self.token()?;
        let op = match token.kind {
            Kind::Byte(b'+') => Op::Add,
            Kind::Byte(b'-') => Op::Sub,
            Kind::Byte(b'*') => Op::Mul,
            _ => return Err(Refusal::Syntax(token.place)),
        };
        let right = self.term()?;
        self.byte(b']')?;
        Ok(Value::Apply(op, left, right))
    }

    fn condition(&mut self) -> Read<Condition> {
        self.byte(b'[')?;
        let left = self.term()?;
        let token = self.token()?;
        let Kind::Word(word) = token.kind else {
            return Err(Refusal::Syntax(token.place));
        };
        let relation = relation(word).ok_or(Refusal::Syntax(token.place))?;
        let right = self.term()?;
        self.byte(b']')?;
        Ok(Condition { relation, left, right })
    }

    fn setting(&mut self) -> Read<Line> {
        let register = self.register()?;
        self.byte(b'=')?;
        let value = self.value()?;
        self.end(Line::Setting { register, value })
    }

    fn motion(&mut self) -> Read<Line> {
        self.digits(0, 1)?;
        let mut values = [None; AXES];
        let mut token = self.token()?;
        loop {
            let axis = axis(token).ok_or(Refusal::Syntax(token.place))?;
            if values[axis].is_some() {
                return Err(Refusal::AxisTwice(token.place));
            }
            values[axis] = Some(self.value()?);
            match self.tokens.next() {
                None => return Ok(Line::Move { values }),
                Some(next) => token = next,
            }
        }
    }

    fn block_line(&mut self) -> Read<Line> {
        let label = self.digits(1, MAX_LABEL)? as u16;
        let token = self.token()?;
        let Kind::Word(word) = token.kind else {
            return Err(Refusal::Syntax(token.place));
        };
        let is = |keyword: &[u8]| word.eq_ignore_ascii_case(keyword);
        let line = if is(b"WHILE") {
            Line::Open { kind: BlockKind::While, label, condition: self.condition()? }
        } else if is(b"IF") {
            Line::Open { kind: BlockKind::If, label, condition: self.condition()? }
        } else if is(b"ENDIF") {
            Line::End { kind: BlockKind::If, label }
        } else if is(b"ENDWHILE") {
            Line::End { kind: BlockKind::While, label }
        } else {
            return Err(Refusal::Syntax(token.place));
        };
        self.end(line)
    }
}

fn number(digits: &[u8], place: usize, least: i32, most: i32) -> Read<i32> {
    if digits.len() > MAX_DIGITS {
        return Err(Refusal::Digits(place));
    }
    let n = digits.iter().fold(0, |n, d| 10 * n + i32::from(d - b'0'));
    if n < least || n > most { Err(Refusal::Digits(place)) } else { Ok(n) }
}

fn axis(token: Token) -> Option<usize> {
    match token.kind {
        Kind::Word([letter]) => b"XYZU".iter().position(|a| a.eq_ignore_ascii_case(letter)),
        _ => None,
    }
}

fn relation(word: &[u8]) -> Option<Relation> {
    const RELATIONS: [(&[u8], Relation); 6] = [
        (b"EQ", Relation::Eq),
        (b"NE", Relation::Ne),
        (b"LT", Relation::Lt),
        (b"LE", Relation::Le),
        (b"GT", Relation::Gt),
        (b"GE", Relation::Ge),
    ];
    RELATIONS.iter().find(|(name, _)| word.eq_ignore_ascii_case(name)).map(|(_, relation)| *relation)
}
