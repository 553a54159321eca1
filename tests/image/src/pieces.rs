//! A text in pieces: parentheses and words, each with its position. From a
//! semicolon to the end of its line is a comment. A byte order mark at the start
//! says nothing and has no column.

use std::fmt;

/// Line and column in a text, both from 1; a column is a character.
#[derive(Clone, Copy, Debug, PartialEq, Eq)]
pub struct Position {
    pub line: usize,
    pub column: usize,
}

impl Position {
    const FIRST: Position = Position { line: 1, column: 1 };

    /// The position behind a text.
    pub fn behind(text: &str) -> Position {
        without_mark(text).chars().fold(Position::FIRST, Position::past)
    }

    /// The position after this one, if this character stands here.
    fn past(self, character: char) -> Position {
        match character {
            '\n' => Position { line: self.line + 1, column: 1 },
            _ => Position { column: self.column + 1, ..self },
        }
    }
}

impl fmt::Display for Position {
    fn fmt(&self, formatter: &mut fmt::Formatter) -> fmt::Result {
        write!(formatter, "{}:{}", self.line, self.column)
    }
}

#[derive(Clone, Debug, PartialEq, Eq)]
pub enum Piece {
    Open,
    Close,
    Word(String),
    End,
}

impl fmt::Display for Piece {
    fn fmt(&self, formatter: &mut fmt::Formatter) -> fmt::Result {
        match self {
            Piece::Open => write!(formatter, "`(`"),
            Piece::Close => write!(formatter, "`)`"),
            Piece::Word(word) => write!(formatter, "`{word}`"),
            Piece::End => write!(formatter, "the end of the text"),
        }
    }
}

/// The pieces of a text, in order; the last is its end.
pub fn pieces(text: &str) -> Vec<(Piece, Position)> {
    let mut found: Vec<(Piece, Position)> = Vec::new();
    let mut position = Position::FIRST;
    let mut comment = false;
    // Whether the last piece is a word that the next character goes on.
    let mut within_word = false;
    for character in without_mark(text).chars() {
        let separates = character.is_whitespace() || comment || character == ';';
        if separates || character == '(' || character == ')' {
            within_word = false;
        }
        match character {
            ';' => comment = true,
            '\n' => comment = false,
            _ if separates => {}
            '(' => found.push((Piece::Open, position)),
            ')' => found.push((Piece::Close, position)),
            _ => match found.last_mut() {
                Some((Piece::Word(word), _)) if within_word => word.push(character),
                _ => {
                    found.push((Piece::Word(character.to_string()), position));
                    within_word = true;
                }
            },
        }
        position = position.past(character);
    }
    found.push((Piece::End, position));
    found
}

fn without_mark(text: &str) -> &str {
    text.strip_prefix('\u{feff}').unwrap_or(text)
}
