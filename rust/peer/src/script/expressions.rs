//! What a token does where an expression begins or may go on.

use super::open::*;
use super::states::{State, Step, Wrong};
use super::tokens::Token;
use super::Reader;
use crate::VARIABLES;

impl Reader<'_> {
    /// Goes past the token that ends an operand.
    #[inline(always)]
    fn operand(&mut self, row: u16) -> Step {
        self.tokens.advance();
        Ok(self.after_operand(row))
    }

    /// Unary minus and the tightest operators take an operand at once.
    #[inline(always)]
    fn after_operand(&mut self, mut row: u16) -> State {
        while self.pop_if(|what| what == NEGATE).is_some() {
            row = self.put(NEGATE, [i32::from(row), 0, 0]);
        }
        if let Some(open) = self.pop_if(|what| (TIMES..=MOD).contains(&what)) {
            row = self.put_two(open, row);
        }
        State::AfterExpression(row)
    }

    #[inline(always)]
    pub fn expression(&mut self) -> Step {
        match self.tokens.token {
            Token::Variable => {
                let variable = self.number(VARIABLES as u64 - 1);
                let row = self.put(2, [variable as i32, 0, 0]);
                self.operand(row)
            }
            Token::Numeral => {
                let value = self.number(i32::MAX as u64);
                let row = self.put(1, [value as i32, 0, 0]);
                self.operand(row)
            }
            Token::Minus => {
                self.tokens.advance();
                if self.tokens.token != Token::Numeral {
                    self.push(NEGATE, 0);
                    return Ok(State::Expression);
                }
                let value = self.number(i32::MAX as u64 + 1);
                let row = self.put(1, [(value as i32).wrapping_neg(), 0, 0]);
                self.operand(row)
            }
            Token::Left => self.go_on(EXPRESSION_BRACKET, 0, State::Expression),
            Token::Mark => {
                self.tokens.advance();
                self.expect(Token::Left)?;
                if self.tokens.token != Token::Numeral {
                    return Err(Wrong);
                }
                let row = self.mark();
                self.tokens.advance();
                self.expect(Token::Right)?;
                Ok(self.after_operand(row))
            }
            Token::When => {
                self.tokens.advance();
                self.expect(Token::Left)?;
                self.push(CHOOSER, 0);
                Ok(State::Formula)
            }
            _ => Err(Wrong),
        }
    }

    #[inline(always)]
    pub fn after_expression(&mut self, row: u16) -> Step {
        let product = match self.tokens.token {
            Token::Times => TIMES,
            Token::Div => DIV,
            Token::Mod => MOD,
            _ => return self.after_sum(row),
        };
        self.go_on(product, row, State::Expression)
    }

    #[inline(always)]
    fn after_sum(&mut self, mut row: u16) -> Step {
        if let Some(open) = self.pop_if(|what| what == PLUS || what == MINUS) {
            row = self.put_two(open, row);
        }
        let comparison = match self.tokens.token {
            Token::Plus => return self.go_on(PLUS, row, State::Expression),
            Token::Minus => return self.go_on(MINUS, row, State::Expression),
            Token::Less => LESS,
            Token::AtMost => AT_MOST,
            Token::Equal => EQUAL,
            Token::Unequal => UNEQUAL,
            _ => return self.close_expression(row),
        };
        let begins = self.open.get(self.open.len().wrapping_sub(1));
        match begins.is_some_and(|open| begins_formula(open.what)) {
            true => self.go_on(comparison, row, State::Expression),
            false => Err(Wrong),
        }
    }

    #[inline(always)]
    fn close_expression(&mut self, row: u16) -> Step {
        let open = self.pop();
        match (open.what, self.tokens.token) {
            (LESS..=UNEQUAL, _) => {
                let row = self.put_two(open, row);
                Ok(self.after_comparison(row))
            }
            (EITHER_BRACKET | EXPRESSION_BRACKET, Token::Right) => self.operand(row),
            (ASSIGN, _) => {
                let row = self.put(33, [i32::from(open.part), i32::from(row), 0]);
                Ok(State::AfterStatement(row))
            }
            (FALL, Token::Do) => {
                let note = self.put(37, [i32::from(open.part), i32::from(row), 0]);
                self.open_body();
                self.go_on(BODY, note, State::Statement)
            }
            (FIRST_CHOICE, Token::Comma) => {
                self.push(FIRST_CHOICE, open.part);
                self.go_on(SECOND_CHOICE, row, State::Expression)
            }
            (SECOND_CHOICE, Token::Right) => {
                let chooser = self.pop().part;
                let row = self.put_three(10, [chooser, open.part, row]);
                self.operand(row)
            }
            _ => Err(Wrong),
        }
    }
}
