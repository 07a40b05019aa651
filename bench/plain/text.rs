//! Text that grows: words, numbers and lists.
use crate::truck::Frac;

#[derive(Default)]
pub struct Text(pub Vec<u8>);

impl Text {
    pub fn word(&mut self, word: impl AsRef<[u8]>) -> &mut Text {
        self.0.extend_from_slice(word.as_ref());
        self
    }

    pub fn number(&mut self, number: u128) -> &mut Text {
        const TENS: u128 = 10_000_000_000_000_000_000;
        if let Ok(low) = u64::try_from(number) {
            return self.digits(low, 1);
        }
        self.number(number / TENS).digits((number % TENS) as u64, 19)
    }

    /// A number with so many digits or more.
    fn digits(&mut self, mut number: u64, least: usize) -> &mut Text {
        let count = least.max(number.checked_ilog10().unwrap_or(0) as usize + 1);
        // room of a fixed size is made at once, where a slice of any size takes a call
        let start = self.0.len();
        self.0.extend_from_slice(&[b'0'; 20]);
        for digit in self.0[start..start + count].iter_mut().rev() {
            *digit = b'0' + (number % 10) as u8;
            number /= 10;
        }
        self.0.truncate(start + count);
        self
    }

    pub fn signed(&mut self, number: i128) -> &mut Text {
        if number < 0 {
            self.word("-");
        }
        self.number(number.unsigned_abs())
    }

    /// A word with a space on both sides, and a number.
    pub fn pair(&mut self, word: &str, number: impl Into<u128>) -> &mut Text {
        self.word(word).number(number.into())
    }

    pub fn frac(&mut self, frac: Frac) -> &mut Text {
        self.number(frac.num).word("/").number(frac.den)
    }

    /// Routes with a slash between two, each a list of segments.
    pub fn routes(&mut self, routes: &[Vec<u32>]) -> &mut Text {
        for (i, route) in routes.iter().enumerate() {
            if i > 0 {
                self.word("/");
            }
            self.list(route, 1);
        }
        self
    }

    /// Numbers with commas between them, each so much greater.
    pub fn list(&mut self, numbers: &[u32], more: u32) -> &mut Text {
        if numbers.is_empty() {
            return self.word("-");
        }
        for (i, number) in numbers.iter().enumerate() {
            if i > 0 {
                self.0.push(b',');
            }
            self.digits(u64::from(number + more), 1);
        }
        self
    }
}
