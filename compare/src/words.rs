//! The words of a command.

/// Words that are taken one after another.
pub struct Words(Vec<String>);

impl Words {
    /// Those of the command line.
    pub fn of_program() -> Words {
        Words(std::env::args().skip(1).collect())
    }

    /// The next word.
    pub fn take(&mut self) -> Option<String> {
        if self.0.is_empty() { None } else { Some(self.0.remove(0)) }
    }

    /// The word after `name`, wherever that stands; both are taken.
    pub fn value(&mut self, name: &str) -> Result<Option<String>, String> {
        let Some(at) = self.0.iter().position(|word| word == name) else { return Ok(None) };
        self.0.remove(at);
        if at == self.0.len() {
            return Err(format!("{name} needs a word after it"));
        }
        Ok(Some(self.0.remove(at)))
    }

    /// The number after `name`, or `usual`.
    pub fn number(&mut self, name: &str, usual: u64) -> Result<u64, String> {
        self.value(name)?.map_or(Ok(usual), |word| number(&word))
    }

    /// Whether the word stands there; it is taken.
    pub fn flag(&mut self, name: &str) -> bool {
        let at = self.0.iter().position(|word| word == name);
        at.map(|at| self.0.remove(at)).is_some()
    }

    /// Nothing may be left.
    pub fn end(&self) -> Result<(), String> {
        self.0.first().map_or(Ok(()), |word| Err(format!("what is {word}?")))
    }
}

/// A decimal number.
pub fn number(word: &str) -> Result<u64, String> {
    word.parse().map_err(|_| format!("{word} is not a number"))
}
