//! Values: a whole number or a float; literals; arithmetic and comparison.

#[derive(Clone, Copy, Debug)]
pub enum Value {
    Whole(i32),
    Real(f64),
}

/// Floats are the same where their bits are.
impl PartialEq for Value {
    fn eq(&self, other: &Value) -> bool {
        match (self, other) {
            (Value::Whole(a), Value::Whole(b)) => a == b,
            (Value::Real(a), Value::Real(b)) => a.to_bits() == b.to_bits(),
            _ => false,
        }
    }
}

#[derive(Clone, Copy, Debug, PartialEq, Eq)]
pub enum Kind {
    Whole,
    Real,
}

impl Value {
    pub fn kind(self) -> Kind {
        match self {
            Value::Whole(_) => Kind::Whole,
            Value::Real(_) => Kind::Real,
        }
    }

    pub fn is_finite(self) -> bool {
        match self {
            Value::Whole(_) => true,
            Value::Real(x) => x.is_finite(),
        }
    }
}

/// The exponent of a prefix letter; no letter is 0 and is not asked here.
pub fn exponent(letter: u8) -> Option<i32> {
    const LETTERS: &[u8; 12] = b"afpnumkMGTPE";
    let place = LETTERS.iter().position(|&known| known == letter)? as i32;
    Some(3 * if place < 6 { place - 6 } else { place - 5 })
}

/// A literal that fills the whole word.
pub fn literal(word: &[u8]) -> Option<Value> {
    const POWERS: [f64; 7] = [1e0, 1e3, 1e6, 1e9, 1e12, 1e15, 1e18];
    let (minus, word) = match word {
        [b'-', rest @ ..] => (true, rest),
        _ => (false, word),
    };
    let count = word.iter().take_while(|byte| byte.is_ascii_digit()).count();
    if !(1..=10).contains(&count) {
        return None;
    }
    let size = word[..count].iter().fold(0i64, |sum, byte| sum * 10 + i64::from(byte - b'0'));
    let whole = i32::try_from(if minus { -size } else { size }).ok()?;
    let exponent = match &word[count..] {
        [] => 0,
        [b'i'] => return Some(Value::Whole(whole)),
        [letter] => exponent(*letter)?,
        _ => return None,
    };
    let power = POWERS[exponent.unsigned_abs() as usize / 3];
    let float = f64::from(whole);
    Some(Value::Real(if exponent < 0 { float / power } else { float * power }))
}

#[derive(Clone, Copy, Debug, PartialEq, Eq)]
pub enum Operation {
    Add,
    Sub,
    Mul,
    Div,
}

pub const ZERO_DIVISOR: u16 = 0x0028;
pub const NOT_FINITE: u16 = 0x0010;

/// The result of two operands of one kind, or the code that stops the run.
pub fn calculate(operation: Operation, a: Value, b: Value) -> Result<Value, u16> {
    match (a, b) {
        (Value::Whole(a), Value::Whole(b)) => Ok(Value::Whole(match operation {
            Operation::Add => a.wrapping_add(b),
            Operation::Sub => a.wrapping_sub(b),
            Operation::Mul => a.wrapping_mul(b),
            Operation::Div if b == 0 => return Err(ZERO_DIVISOR),
            Operation::Div => a.wrapping_div(b),
        })),
        (Value::Real(a), Value::Real(b)) => real(match operation {
            Operation::Add => a + b,
            Operation::Sub => a - b,
            Operation::Mul => a * b,
            Operation::Div if b == 0.0 => return Err(ZERO_DIVISOR),
            Operation::Div => a / b,
        }),
        _ => unreachable!("kinds are tested before"),
    }
}

/// A float result or reading, which must be finite.
pub fn real(x: f64) -> Result<Value, u16> {
    if x.is_finite() {
        Ok(Value::Real(x))
    } else {
        Err(NOT_FINITE)
    }
}

#[derive(Clone, Copy, Debug, PartialEq, Eq)]
pub enum Comparison {
    Equal,
    NotEqual,
    Less,
    LessEqual,
    Greater,
    GreaterEqual,
}

pub const COMPARISONS: [(&str, Comparison); 6] = [
    ("==", Comparison::Equal),
    ("!=", Comparison::NotEqual),
    ("<", Comparison::Less),
    ("<=", Comparison::LessEqual),
    (">", Comparison::Greater),
    (">=", Comparison::GreaterEqual),
];

impl Comparison {
    pub fn read(word: &[u8]) -> Option<Comparison> {
        COMPARISONS.iter().find(|(sign, _)| sign.as_bytes() == word).map(|&(_, found)| found)
    }

    /// Whether it holds of two operands of one kind.
    pub fn holds(self, a: Value, b: Value) -> bool {
        match (a, b) {
            (Value::Whole(a), Value::Whole(b)) => self.of(&a, &b),
            (Value::Real(a), Value::Real(b)) => self.of(&a, &b),
            _ => unreachable!("kinds are tested before"),
        }
    }

    fn of<T: PartialOrd>(self, a: &T, b: &T) -> bool {
        match self {
            Comparison::Equal => a == b,
            Comparison::NotEqual => a != b,
            Comparison::Less => a < b,
            Comparison::LessEqual => a <= b,
            Comparison::Greater => a > b,
            Comparison::GreaterEqual => a >= b,
        }
    }
}

#[cfg(test)]
mod tests {
    use super::*;

    #[test]
    fn cases_d_and_e() {
        assert_eq!(literal(b"1500m"), Some(Value::Real(1.5)));
        assert_eq!(literal(b"-0"), Some(Value::Real(0.0)));
        assert_eq!(literal(b"-0m"), Some(Value::Real(0.0)));
    }

    #[test]
    fn ends_of_32_bits() {
        assert_eq!(literal(b"2147483647i"), Some(Value::Whole(i32::MAX)));
        assert_eq!(literal(b"-2147483648i"), Some(Value::Whole(i32::MIN)));
        assert_eq!(literal(b"2147483648"), None);
        assert_eq!(literal(b"00000000001"), None);
        assert_eq!(literal(b"0000000001"), Some(Value::Real(1.0)));
    }

    #[test]
    fn letters_in_order() {
        let exponents: Vec<i32> = b"afpnumkMGTPE".iter().map(|&letter| exponent(letter).unwrap()).collect();
        assert_eq!(exponents, [-18, -15, -12, -9, -6, -3, 3, 6, 9, 12, 15, 18]);
        assert_eq!(literal(b"3E"), Some(Value::Real(3e18)));
        assert_eq!(literal(b"3ii"), None);
        assert_eq!(literal(b"3x"), None);
        assert_eq!(literal(b"-"), None);
    }

    #[test]
    fn whole_numbers_wrap() {
        let low = Value::Whole(i32::MIN);
        assert_eq!(calculate(Operation::Div, low, Value::Whole(-1)), Ok(low));
        assert_eq!(calculate(Operation::Div, Value::Whole(-7), Value::Whole(2)), Ok(Value::Whole(-3)));
        assert_eq!(calculate(Operation::Div, Value::Real(0.0), Value::Real(-0.0)), Err(ZERO_DIVISOR));
        assert_eq!(calculate(Operation::Mul, Value::Real(1e200), Value::Real(1e200)), Err(NOT_FINITE));
    }
}
