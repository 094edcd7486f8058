//! Command line arguments: `--name value`, flags, and plain words.

pub struct Arguments(Vec<String>);

impl Arguments {
    pub fn new(words: Vec<String>) -> Arguments {
        Arguments(words)
    }

    /// The number after `--name`, or another.
    pub fn number(&mut self, name: &str, otherwise: u64) -> Result<u64, String> {
        let Some(place) = self.0.iter().position(|word| word == name) else {
            return Ok(otherwise);
        };
        let value = self.0.get(place + 1).and_then(|value| value.parse().ok());
        let value = value.ok_or_else(|| format!("{name} needs a number"))?;
        self.0.drain(place..place + 2);
        Ok(value)
    }

    pub fn flag(&mut self, name: &str) -> bool {
        let place = self.0.iter().position(|word| word == name);
        place.map(|place| self.0.remove(place)).is_some()
    }

    /// The next plain word.
    pub fn word(&mut self, what: &str) -> Result<String, String> {
        if self.0.is_empty() {
            return Err(format!("{what} is missing"));
        }
        Ok(self.0.remove(0))
    }

    /// Refuses what is left over.
    pub fn finish(&self) -> Result<(), String> {
        match self.0.first() {
            Some(word) => Err(format!("unknown argument {word}")),
            None => Ok(()),
        }
    }
}
