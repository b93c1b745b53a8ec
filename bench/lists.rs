//! How long it takes to fill the two lists that reading hands on, of all tokens and of all statements, and to drop
//! them, with no grammar and no fault: a mark to measure a reader of these types by. Plain Rust, for rustc alone:
//!
//!     rustc -O bench/lists.rs -o /tmp/lists && /tmp/lists
//!
//! The text is 262,144 times `P().`; the first round counts, since its pages are fresh, as those of a program are.
#![allow(dead_code)]

use std::time::Instant;

const TIMES: usize = 262_144;

enum Text {
    Inline { bytes: [u8; 15], len: u8 },
    Heap(Box<String>),
}

struct Word {
    text: Text,
}

impl Word {
    fn of(text: &[u8]) -> Word {
        let mut bytes = [0; 15];
        bytes[..text.len()].copy_from_slice(text);
        let len = text.len() as u8;
        Word {
            text: Text::Inline { bytes, len },
        }
    }

    fn bytes(&self) -> &[u8] {
        match &self.text {
            Text::Inline { bytes, len } => &bytes[..*len as usize],
            Text::Heap(text) => text.as_bytes(),
        }
    }
}

enum Kind {
    Upper,
    Sign,
}

struct Token {
    word: Word,
    line: u32,
    kind: Kind,
}

enum Arg {
    Name { name: Word, args: Vec<Arg> },
    Number(u32),
    Sum(Box<Arg>, Box<Arg>),
}

enum Tree {
    Atom { name: Word, args: Vec<Arg> },
    Compare { left: Arg, right: Arg },
    Not(Box<Tree>),
    And(Vec<Tree>),
}

struct Statement {
    line: u32,
    label: Option<Word>,
    tree: Tree,
}

fn tokens(text: &[u8]) -> Vec<Token> {
    let mut found = Vec::new();
    let mut line = 1;
    let mut rest = text;
    while let Some(first) = rest.first() {
        let len = rest
            .iter()
            .take_while(|byte| byte.is_ascii_alphanumeric())
            .count()
            .max(1);
        let (word, behind) = rest.split_at(len);
        rest = behind;
        match first {
            b'\n' => line += 1,
            b' ' => {}
            b'A'..=b'Z' => found.push(Token {
                word: Word::of(word),
                line,
                kind: Kind::Upper,
            }),
            _ => found.push(Token {
                word: Word::of(word),
                line,
                kind: Kind::Sign,
            }),
        }
    }
    found
}

/// Four tokens each are a statement; the first is its name.
fn statements(tokens: &[Token]) -> Vec<Statement> {
    let mut found = Vec::new();
    for statement in tokens.chunks(4) {
        let name = Word::of(statement[0].word.bytes());
        assert!(statement[3].word.bytes() == b".");
        let tree = Tree::Atom {
            name,
            args: Vec::new(),
        };
        found.push(Statement {
            line: statement[0].line,
            label: None,
            tree,
        });
    }
    found
}

fn main() {
    let text = b"P().".repeat(TIMES);
    println!(
        "a token {} bytes, a statement {}",
        size_of::<Token>(),
        size_of::<Statement>()
    );
    for round in 1..=3 {
        let start = Instant::now();
        let tokens = tokens(&text);
        let lexed = start.elapsed();
        let statements = statements(&tokens);
        let parsed = start.elapsed();
        let count = statements.len();
        drop((statements, tokens));
        let seconds = start.elapsed().as_secs_f64();
        let speed = text.len() as f64 / 1e6 / seconds;
        println!("round {round}: {count} statements, tokens {lexed:?}, both {parsed:?}, dropped {seconds:.3} s, {speed:.1} MB/s");
    }
}
