//! What a token does where a statement or a formula begins, ends or may go on.

use super::open::*;
use super::tokens::Token;
use super::Reader;
use crate::VARIABLES;

/// What the token at hand is looked at for: the beginning of a part, or what
/// follows the row of one.
pub enum State {
    Statement,
    Formula,
    Expression,
    AfterExpression(u16),
    AfterFormula(u16),
    AfterStatement(u16),
    Whole,
}

/// The token at hand cannot stand here, or is none.
pub struct Wrong;

pub type Step = Result<State, Wrong>;

impl Reader<'_> {
    /// The whole text. Where it is none, the token at hand is the first wrong one.
    #[inline(always)]
    pub fn script(&mut self) -> Result<(), Wrong> {
        self.tokens.advance();
        self.expect(Token::Pre)?;
        self.push(PRE, 0);
        let mut state = State::Formula;
        loop {
            state = match state {
                State::Statement => self.statement()?,
                State::Formula => self.formula()?,
                State::Expression => self.expression()?,
                State::AfterExpression(row) => self.after_expression(row)?,
                State::AfterFormula(row) => self.after_formula(row)?,
                State::AfterStatement(row) => self.after_statement(row)?,
                State::Whole => return Ok(()),
            }
        }
    }

    #[inline(always)]
    pub fn push(&mut self, what: u16, part: u16) {
        self.open.push(Open { what, part });
    }

    /// What was opened last is closed.
    #[inline(always)]
    pub fn pop(&mut self) -> Open {
        self.open.pop().unwrap_or(NOTHING)
    }

    /// The part of what was opened last, where it is this; it is closed.
    #[inline(always)]
    pub fn pop_if(&mut self, what: impl Fn(u16) -> bool) -> Option<Open> {
        let top = *self.open.get(self.open.len().wrapping_sub(1))?;
        what(top.what).then(|| self.pop())
    }

    #[inline(always)]
    pub fn put_two(&mut self, open: Open, right: u16) -> u16 {
        self.put(open.what, [i32::from(open.part), i32::from(right), 0])
    }

    #[inline(always)]
    pub fn put_three(&mut self, kind: u16, parts: [u16; 3]) -> u16 {
        self.put(kind, parts.map(i32::from))
    }

    /// Goes past the token and opens.
    #[inline(always)]
    pub fn go_on(&mut self, what: u16, part: u16, state: State) -> Step {
        self.tokens.advance();
        self.push(what, part);
        Ok(state)
    }

    /// So do not and and.
    #[inline(always)]
    pub fn after_comparison(&mut self, mut row: u16) -> State {
        while self.pop_if(|what| what == NOT).is_some() {
            row = self.put(NOT, [i32::from(row), 0, 0]);
        }
        if let Some(open) = self.pop_if(|what| what == AND) {
            row = self.put_two(open, row);
        }
        State::AfterFormula(row)
    }

    #[inline(always)]
    fn statement(&mut self) -> Step {
        match self.tokens.token {
            Token::Skip => {
                self.tokens.advance();
                Ok(State::AfterStatement(self.put(32, [0; 3])))
            }
            Token::Variable => {
                let variable = self.number(VARIABLES as u64 - 1);
                self.tokens.advance();
                self.expect(Token::Becomes)?;
                self.push(ASSIGN, variable as u16);
                Ok(State::Expression)
            }
            Token::Assert => self.go_on(ASSERT, 0, State::Formula),
            Token::If => self.go_on(IF, 0, State::Formula),
            Token::While => self.go_on(WHILE, 0, State::Formula),
            _ => Err(Wrong),
        }
    }

    #[inline(always)]
    fn formula(&mut self) -> Step {
        let kind = match self.tokens.token {
            Token::True => 16,
            Token::False => 17,
            Token::Not => return self.go_on(NOT, 0, State::Formula),
            Token::Left => return self.go_on(EITHER_BRACKET, 0, State::Formula),
            _ => return self.expression(),
        };
        self.tokens.advance();
        let row = self.put(kind, [0; 3]);
        Ok(self.after_comparison(row))
    }

    #[inline(always)]
    fn after_formula(&mut self, mut row: u16) -> Step {
        if self.tokens.token == Token::And {
            return self.go_on(AND, row, State::Formula);
        }
        if let Some(open) = self.pop_if(|what| what == OR) {
            row = self.put_two(open, row);
        }
        match self.tokens.token {
            Token::Or => self.go_on(OR, row, State::Formula),
            Token::Implies => self.go_on(IMPLIES, row, State::Formula),
            _ => self.close_formula(row),
        }
    }

    #[inline(always)]
    fn close_formula(&mut self, mut row: u16) -> Step {
        while let Some(open) = self.pop_if(|what| what == IMPLIES) {
            row = self.put_two(open, row);
        }
        let open = self.pop();
        match (open.what, self.tokens.token) {
            (EITHER_BRACKET, Token::Right) => {
                self.tokens.advance();
                Ok(self.after_comparison(row))
            }
            (CHOOSER, Token::Comma) => self.go_on(FIRST_CHOICE, row, State::Expression),
            (ASSERT, _) => {
                let row = self.put(38, [i32::from(row), 0, 0]);
                Ok(State::AfterStatement(row))
            }
            (IF, Token::Then) => self.go_on(THEN, row, State::Statement),
            (WHILE, Token::Keep) => self.go_on(KEEP, row, State::Formula),
            (KEEP, Token::Fall) => {
                self.push(KEEP, open.part);
                self.go_on(FALL, row, State::Expression)
            }
            (PRE, Token::Semicolon) => self.go_on(SCRIPT, row, State::Statement),
            (POST, Token::End) => {
                let precondition = self.pop().part;
                self.put_three(48, [precondition, open.part, row]);
                Ok(State::Whole)
            }
            _ => Err(Wrong),
        }
    }

    #[inline(always)]
    fn after_statement(&mut self, row: u16) -> Step {
        match self.tokens.token {
            Token::Semicolon => self.tokens.advance(),
            Token::Else | Token::Close => return self.close_statements(row),
            _ => return Err(Wrong),
        }
        if self.tokens.token == Token::Post {
            return self.close_statements(row);
        }
        self.push(SEQUENCE, row);
        Ok(State::Statement)
    }

    #[inline(always)]
    fn close_statements(&mut self, mut row: u16) -> Step {
        while let Some(open) = self.pop_if(|what| what == SEQUENCE) {
            row = self.put_two(open, row);
        }
        let open = self.pop();
        match (open.what, self.tokens.token) {
            (SCRIPT, Token::Post) => {
                self.push(SCRIPT, open.part);
                self.go_on(POST, row, State::Formula)
            }
            (THEN, Token::Else) => {
                self.push(THEN, open.part);
                self.go_on(ELSE, row, State::Statement)
            }
            (ELSE, Token::Close) => {
                let guard = self.pop().part;
                self.tokens.advance();
                let row = self.put_three(35, [guard, open.part, row]);
                Ok(State::AfterStatement(row))
            }
            (BODY, Token::Close) => {
                let guard = self.pop().part;
                self.tokens.advance();
                let row = self.put_three(36, [guard, open.part, row]);
                self.close_body(row);
                Ok(State::AfterStatement(row))
            }
            _ => Err(Wrong),
        }
    }
}
