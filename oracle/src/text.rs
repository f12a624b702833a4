//! Plans as text: a reader and a printer of their own, written from docs/PLANS.md.

/// An expression.
#[derive(Clone, Debug, PartialEq, Eq)]
pub enum Expr {
    Num(u64),
    Word(Word),
    Not(Box<Expr>),
    Pair(Box<Expr>, Sign, Box<Expr>),
}

/// What stands for something of an event.
#[derive(Clone, Copy, Debug, PartialEq, Eq)]
pub enum Word {
    Time,
    Key,
    Value,
}

/// An operator between two expressions, by its sign.
#[derive(Clone, Copy, Debug, PartialEq, Eq)]
pub struct Sign(pub char);

#[derive(Clone, Debug, PartialEq, Eq)]
pub struct Stage {
    pub keep: Expr,
    pub key: Expr,
    pub value: Expr,
    pub size: u64,
    pub aggregate: &'static str,
}

#[derive(Clone, Debug, PartialEq, Eq)]
pub struct Plan {
    pub late: u64,
    pub stages: Vec<Stage>,
}

/// Why a text is no plan, in the words of docs/PLANS.md.
#[derive(Clone, Copy, Debug, PartialEq, Eq)]
pub enum Why {
    Long,
    Late,
    Number,
    Large,
    Joined,
    Lateness,
    Semicolon,
    Stages,
    Window,
    Size,
    Aggregate,
    Operand,
    Close,
    Deep,
    Parts,
    Chained,
}

impl Why {
    pub const ALL: [Why; 16] = [
        Why::Long,
        Why::Late,
        Why::Number,
        Why::Large,
        Why::Joined,
        Why::Lateness,
        Why::Semicolon,
        Why::Stages,
        Why::Window,
        Why::Size,
        Why::Aggregate,
        Why::Operand,
        Why::Close,
        Why::Deep,
        Why::Parts,
        Why::Chained,
    ];

    /// What is said of it.
    pub fn said(self) -> &'static str {
        match self {
            Why::Long => "a plan has at most 65536 bytes",
            Why::Late => "expected `late`",
            Why::Number => "expected a number",
            Why::Large => "a number is below 18446744073709551616",
            Why::Joined => "a letter stands right behind a number",
            Why::Lateness => "a lateness is at most 1099511627776",
            Why::Semicolon => "expected `;`",
            Why::Stages => "a plan has at most 8 stages",
            Why::Window => "expected `in`",
            Why::Size => "a size is 1 to 1099511627776",
            Why::Aggregate => "expected `count`, `total`, `least` or `greatest`",
            Why::Operand => "expected a number, `time`, `key`, `value`, `!` or `(`",
            Why::Close => "expected `)`",
            Why::Deep => "brackets stand at most 64 deep",
            Why::Parts => "an expression has at most 64 parts",
            Why::Chained => "`<` and `=` do not chain",
        }
    }
}

/// A reason and the offset of the place.
#[derive(Clone, Copy, Debug, PartialEq, Eq)]
pub struct Refusal {
    pub at: usize,
    pub why: Why,
}

type Read<T> = Result<T, Refusal>;

const BYTES: usize = 65_536;
const LARGEST_SPAN: u64 = 1 << 40;
const STAGES: usize = 8;
const BRACKETS: usize = 64;
const PARTS: usize = 64;

/// A token of a text with the offset of its first byte. A run of letters and digits that begins with a letter is a
/// word; digits are a number, with the offset of a letter that stands right behind them, if one does.
#[derive(Clone, Debug, PartialEq)]
enum Token {
    Word(String),
    Number { value: Option<u64>, letter: Option<usize> },
    Sign(u8),
    End,
}

struct Tokens {
    all: Vec<(usize, Token)>,
    next: usize,
}

fn tokens(text: &[u8]) -> Vec<(usize, Token)> {
    let mut all = Vec::new();
    let mut i = 0;
    while i < text.len() {
        let start = i;
        let c = text[i];
        match c {
            b' ' | b'\t' | b'\n' | b'\r' => i += 1,
            b'0'..=b'9' => {
                let mut value = Some(0u64);
                while i < text.len() && text[i].is_ascii_digit() {
                    let digit = u64::from(text[i] - b'0');
                    value = value.and_then(|v| v.checked_mul(10)).and_then(|v| v.checked_add(digit));
                    i += 1;
                }
                let letter = (i < text.len() && text[i].is_ascii_alphabetic()).then_some(i);
                while i < text.len() && text[i].is_ascii_alphanumeric() {
                    i += 1;
                }
                all.push((start, Token::Number { value, letter }));
            }
            _ if c.is_ascii_alphabetic() => {
                while i < text.len() && text[i].is_ascii_alphanumeric() {
                    i += 1;
                }
                all.push((start, Token::Word(String::from_utf8_lossy(&text[start..i]).into_owned())));
            }
            _ => {
                i += 1;
                all.push((start, Token::Sign(c)));
            }
        }
    }
    all.push((text.len(), Token::End));
    all
}

fn refuse<T>(at: usize, why: Why) -> Read<T> {
    Err(Refusal { at, why })
}

impl Tokens {
    fn at(&self) -> usize {
        self.all[self.next].0
    }

    fn look(&self) -> &Token {
        &self.all[self.next].1
    }

    fn word(&mut self, word: &str) -> bool {
        let found = matches!(self.look(), Token::Word(w) if w == word);
        if found {
            self.next += 1;
        }
        found
    }

    fn sign(&mut self, signs: &str) -> Option<char> {
        let Token::Sign(c) = *self.look() else {
            return None;
        };
        let found = signs.chars().find(|s| *s as u32 == u32::from(c));
        if found.is_some() {
            self.next += 1;
        }
        found
    }

    fn number(&mut self) -> Read<u64> {
        let at = self.at();
        let Token::Number { value, letter } = self.look().clone() else {
            return refuse(at, Why::Number);
        };
        let Some(value) = value else {
            return refuse(at, Why::Large);
        };
        if let Some(letter) = letter {
            return refuse(letter, Why::Joined);
        }
        self.next += 1;
        Ok(value)
    }

    fn span(&mut self, low: u64, why: Why) -> Read<u64> {
        let at = self.at();
        let n = self.number()?;
        if n < low || n > LARGEST_SPAN { refuse(at, why) } else { Ok(n) }
    }

    fn atom(&mut self, open: usize) -> Read<Expr> {
        let at = self.at();
        if matches!(self.look(), Token::Number { .. }) {
            return Ok(Expr::Num(self.number()?));
        }
        for (name, word) in [("time", Word::Time), ("key", Word::Key), ("value", Word::Value)] {
            if self.word(name) {
                return Ok(Expr::Word(word));
            }
        }
        if self.sign("(").is_none() {
            return refuse(at, Why::Operand);
        }
        if open == BRACKETS {
            return refuse(at, Why::Deep);
        }
        let inner = self.expr(open + 1)?;
        if self.sign(")").is_none() {
            return refuse(self.at(), Why::Close);
        }
        Ok(inner)
    }

    /// All `!` of a row, then what they stand before; the innermost is applied first.
    fn factor(&mut self, open: usize) -> Read<Expr> {
        let mut nots = Vec::new();
        loop {
            let at = self.at();
            if self.sign("!").is_none() {
                break;
            }
            if nots.len() == PARTS {
                return refuse(at, Why::Parts);
            }
            nots.push(at);
        }
        let mut e = self.atom(open)?;
        while let Some(at) = nots.pop() {
            e = counted(at, Expr::Not(Box::new(e)))?;
        }
        Ok(e)
    }

    // Operands with signs between them, from left to right.
    fn chain(&mut self, open: usize, signs: &str, operand: fn(&mut Self, usize) -> Read<Expr>) -> Read<Expr> {
        let mut left = operand(self, open)?;
        loop {
            let at = self.at();
            let Some(sign) = self.sign(signs) else {
                return Ok(left);
            };
            let right = operand(self, open)?;
            left = counted(at, Expr::Pair(Box::new(left), Sign(sign), Box::new(right)))?;
        }
    }

    fn product(&mut self, open: usize) -> Read<Expr> {
        self.chain(open, "*/%", Self::factor)
    }

    fn sum(&mut self, open: usize) -> Read<Expr> {
        self.chain(open, "+-", Self::product)
    }

    fn expr(&mut self, open: usize) -> Read<Expr> {
        let left = self.sum(open)?;
        let at = self.at();
        let Some(sign) = self.sign("<=") else {
            return Ok(left);
        };
        let right = self.sum(open)?;
        let both = counted(at, Expr::Pair(Box::new(left), Sign(sign), Box::new(right)))?;
        let at = self.at();
        if self.sign("<=").is_some() { refuse(at, Why::Chained) } else { Ok(both) }
    }

    fn stage(&mut self) -> Read<Stage> {
        let keep = if self.word("keep") { self.expr(0)? } else { Expr::Num(1) };
        let key = if self.word("key") { self.expr(0)? } else { Expr::Word(Word::Key) };
        let value = if self.word("value") { self.expr(0)? } else { Expr::Word(Word::Value) };
        if !self.word("in") {
            return refuse(self.at(), Why::Window);
        }
        let size = self.span(1, Why::Size)?;
        for aggregate in ["count", "total", "least", "greatest"] {
            if self.word(aggregate) {
                return Ok(Stage { keep, key, value, size, aggregate });
            }
        }
        refuse(self.at(), Why::Aggregate)
    }
}

/// How many parts an expression has.
pub fn parts(e: &Expr) -> usize {
    match e {
        Expr::Num(_) | Expr::Word(_) => 1,
        Expr::Not(a) => 1 + parts(a),
        Expr::Pair(a, _, b) => 1 + parts(a) + parts(b),
    }
}

fn counted(at: usize, e: Expr) -> Read<Expr> {
    if parts(&e) > PARTS { refuse(at, Why::Parts) } else { Ok(e) }
}

/// The plan that a text is, or where and why it is none.
pub fn read(text: &[u8]) -> Read<Plan> {
    if text.len() > BYTES {
        return refuse(BYTES, Why::Long);
    }
    let mut tokens = Tokens { all: tokens(text), next: 0 };
    if !tokens.word("late") {
        return refuse(tokens.at(), Why::Late);
    }
    let late = tokens.span(0, Why::Lateness)?;
    let mut stages = Vec::new();
    loop {
        let at = tokens.at();
        if tokens.sign(";").is_some() {
            if stages.len() == STAGES {
                return refuse(at, Why::Stages);
            }
            stages.push(tokens.stage()?);
        } else if *tokens.look() == Token::End && !stages.is_empty() {
            return Ok(Plan { late, stages });
        } else {
            return refuse(at, Why::Semicolon);
        }
    }
}

/// The line and the column of an offset, both from 1 on.
pub fn position(text: &[u8], at: usize) -> (usize, usize) {
    let before = &text[..at];
    let line = 1 + before.iter().filter(|c| **c == b'\n').count();
    let column = 1 + before.iter().rev().take_while(|c| **c != b'\n').count();
    (line, column)
}

/// How close an expression binds.
fn bond(e: &Expr) -> usize {
    match e {
        Expr::Pair(_, Sign('<' | '='), _) => 1,
        Expr::Pair(_, Sign('+' | '-'), _) => 2,
        Expr::Pair(..) => 3,
        _ => 4,
    }
}

fn show(e: &Expr, least: usize) -> String {
    let own = bond(e);
    let text = match e {
        Expr::Num(n) => n.to_string(),
        Expr::Word(Word::Time) => "time".into(),
        Expr::Word(Word::Key) => "key".into(),
        Expr::Word(Word::Value) => "value".into(),
        Expr::Not(a) => format!("!{}", show(a, 4)),
        Expr::Pair(a, Sign(sign), b) => {
            let left = if own == 1 { 2 } else { own };
            format!("{} {sign} {}", show(a, left), show(b, own + 1))
        }
    };
    if own < least { format!("({text})") } else { text }
}

/// A plan as text.
pub fn print(plan: &Plan) -> String {
    let mut text = format!("late {}", plan.late);
    for s in &plan.stages {
        text += ";";
        for (name, e, default) in [
            ("keep", &s.keep, Expr::Num(1)),
            ("key", &s.key, Expr::Word(Word::Key)),
            ("value", &s.value, Expr::Word(Word::Value)),
        ] {
            if *e != default {
                text += &format!(" {name} {}", show(e, 1));
            }
        }
        text += &format!(" in {} {}", s.size, s.aggregate);
    }
    text
}
