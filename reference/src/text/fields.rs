//! The `name=value` words of a line.

use std::str::FromStr;

/// Fields that no one has taken yet.
pub struct Fields<'a>(Vec<(&'a str, &'a str)>);

impl<'a> Fields<'a> {
    pub fn parse(words: &[&'a str]) -> Result<Fields<'a>, String> {
        let mut fields: Vec<(&str, &str)> = Vec::new();
        for word in words {
            let (name, value) = word
                .split_once('=')
                .ok_or_else(|| format!("not name=value: {word}"))?;
            if fields.iter().any(|field| field.0 == name) {
                return Err(format!("twice: {name}"));
            }
            fields.push((name, value));
        }
        Ok(Fields(fields))
    }

    pub fn take(&mut self, name: &str) -> Option<&'a str> {
        let index = self.0.iter().position(|field| field.0 == name)?;
        Some(self.0.remove(index).1)
    }

    pub fn number<T: Number>(&mut self, name: &str) -> Result<T, String> {
        let value = self.optional(name)?;
        value.ok_or_else(|| format!("missing: {name}"))
    }

    pub fn number_or<T: Number>(&mut self, name: &str, default: T) -> Result<T, String> {
        Ok(self.optional(name)?.unwrap_or(default))
    }

    fn optional<T: Number>(&mut self, name: &str) -> Result<Option<T>, String> {
        let Some(value) = self.take(name) else {
            return Ok(None);
        };
        match number(value) {
            Some(number) => Ok(Some(number)),
            None => Err(format!("not a number for {name}: {value}")),
        }
    }

    /// Every field has to be taken by now.
    pub fn finish(self) -> Result<(), String> {
        match self.0.first() {
            Some((name, _)) => Err(format!("no such field: {name}")),
            None => Ok(()),
        }
    }
}

/// An integer that reads from decimal and from hexadecimal digits.
pub trait Number: FromStr + TryFrom<u64> {}

impl<T: FromStr + TryFrom<u64>> Number for T {}

pub fn number<T: Number>(text: &str) -> Option<T> {
    match text.strip_prefix("0x") {
        Some(digits) => T::try_from(u64::from_str_radix(digits, 16).ok()?).ok(),
        None => text.parse().ok(),
    }
}
