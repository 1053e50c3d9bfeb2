//! The words of a step.

use crate::side::Side;
use std::str::SplitWhitespace;

pub struct Words<'step>(SplitWhitespace<'step>);

impl<'step> Words<'step> {
    pub fn of(step: &'step str) -> Self {
        Words(step.split_whitespace())
    }

    pub fn name(&mut self) -> Result<&'step str, String> {
        self.0.next().ok_or("a word is missing".to_string())
    }

    pub fn decimal<Number: TryFrom<u32>>(&mut self) -> Result<Number, String> {
        number(self.name()?, 10)
    }

    pub fn hex<Number: TryFrom<u32>>(&mut self) -> Result<Number, String> {
        number(self.name()?, 16)
    }

    /// 1 is the cable, any other number the partner.
    pub fn side(&mut self) -> Result<Side, String> {
        Ok(match self.decimal::<u8>()? {
            1 => Side::Cable,
            _ => Side::Partner,
        })
    }

    /// The numbers up to a stroke or the end.
    pub fn hexes<Number: TryFrom<u32>>(&mut self) -> Result<Vec<Number>, String> {
        let words = self.0.by_ref().take_while(|&word| word != "/");
        words.map(|word| number(word, 16)).collect()
    }

    /// Bytes of two digits each, the low byte of a word first.
    pub fn bytes(&mut self) -> Result<Vec<u8>, String> {
        let mut bytes = Vec::new();
        for word in self.0.by_ref() {
            let value: u32 = number(word, 16)?;
            bytes.extend(&value.to_le_bytes()[..word.len() / 2]);
        }
        Ok(bytes)
    }
}

fn number<Number: TryFrom<u32>>(word: &str, base: u32) -> Result<Number, String> {
    let value = u32::from_str_radix(word, base).ok();
    let value = value.and_then(|value| Number::try_from(value).ok());
    value.ok_or_else(|| format!("no number: {word}"))
}
