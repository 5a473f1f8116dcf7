//! Values of expressions: signed, 64 bits.

use crate::number::Number;
use crate::store::Store;
use crate::text::Marks;

/// A value. The type's ends are the ends of the range.
pub type Value = i64;

/// Most digits in a stored number.
const STORED_DIGITS: usize = 19;

/// The value of a whole expression.
pub fn value(expression: &[u8], marks: &Marks, store: &Store) -> Result<Value, Number> {
    let mut reader = Reader { left: expression, marks, store };
    reader.expression().filter(|_| reader.left.is_empty()).ok_or(Number::BadExpression)
}

/// A value as it is written: without leading zeros or plus, and with mark 9
/// for minus.
pub fn written(value: Value, marks: &Marks) -> Vec<u8> {
    let mut bytes = value.to_string().into_bytes();
    if value < 0 {
        bytes[0] = marks.minus;
    }
    bytes
}

/// The bytes of an expression that are still to be read. Every method gives
/// `None` for the one fault that an expression has.
struct Reader<'a> {
    left: &'a [u8],
    marks: &'a Marks,
    store: &'a Store,
}

impl<'a> Reader<'a> {
    /// Products with plus and minus between them; nothing at all is 0.
    fn expression(&mut self) -> Option<Value> {
        if self.left.first().is_none_or(|&byte| byte == self.marks.right) {
            return Some(0);
        }
        let negative = self.take(self.marks.minus);
        if !negative {
            self.take(self.marks.plus);
        }
        let first = self.product()?;
        let mut sum = if negative { first.checked_neg()? } else { first };
        loop {
            if self.take(self.marks.plus) {
                sum = sum.checked_add(self.product()?)?;
            } else if self.take(self.marks.minus) {
                sum = sum.checked_sub(self.product()?)?;
            } else {
                return Some(sum);
            }
        }
    }

    /// Operands with times and divide between them.
    fn product(&mut self) -> Option<Value> {
        let mut product = self.operand()?;
        loop {
            if self.take(self.marks.times) {
                product = product.checked_mul(self.operand()?)?;
            } else if self.take(self.marks.divide) {
                product = product.checked_div(self.operand()?)?;
            } else {
                return Some(product);
            }
        }
    }

    /// Digits, an expression in brackets, or a name.
    fn operand(&mut self) -> Option<Value> {
        if self.take(self.marks.left) {
            let inner = self.expression()?;
            return self.take(self.marks.right).then_some(inner);
        }
        if self.left.first()?.is_ascii_digit() {
            return number(self.row(|byte| byte.is_ascii_digit()), false);
        }
        let marks = self.marks;
        let name = self.row(|byte| !marks.is_syntax(byte));
        if name.is_empty() {
            return None;
        }
        stored_number(self.store.text(name)?, marks)
    }

    /// Takes the next byte if it is `mark`.
    fn take(&mut self, mark: u8) -> bool {
        match self.left.split_first() {
            Some((&byte, rest)) if byte == mark => {
                self.left = rest;
                true
            }
            _ => false,
        }
    }

    /// Takes the longest row of bytes that belong.
    fn row(&mut self, belongs: impl Fn(u8) -> bool) -> &'a [u8] {
        let end = self.left.iter().position(|&byte| !belongs(byte));
        let (row, rest) = self.left.split_at(end.unwrap_or(self.left.len()));
        self.left = rest;
        row
    }
}

/// A row of digits as a number, below 0 if `negative`; `None` outside the range,
/// however long the row.
fn number(digits: &[u8], negative: bool) -> Option<Value> {
    digits.iter().try_fold(0, |number: Value, &byte| {
        let digit = Value::from(byte - b'0');
        let tens = number.checked_mul(10)?;
        if negative {
            tens.checked_sub(digit)
        } else {
            tens.checked_add(digit)
        }
    })
}

/// The number in a stored text: an optional minus and 1 to 19 digits.
fn stored_number(text: &[u8], marks: &Marks) -> Option<Value> {
    let (negative, digits) = match text.split_first() {
        Some((&byte, rest)) if byte == marks.minus => (true, rest),
        _ => (false, text),
    };
    let is_number = (1..=STORED_DIGITS).contains(&digits.len()) && digits.iter().all(u8::is_ascii_digit);
    if is_number {
        number(digits, negative)
    } else {
        None
    }
}
