//! Borders that lines may meet, each counted under its name: for the tool
//! postings.

use std::collections::BTreeMap;
use std::io::{self, Write};

/// Every border that is counted, with its count, so that those not met show as
/// 0.
pub struct Borders {
    names: Vec<String>,
    counts: BTreeMap<String, u64>,
}

impl Borders {
    /// These borders, none of them met.
    pub fn new(names: Vec<String>) -> Borders {
        let counts = names.iter().map(|name| (name.clone(), 0)).collect();
        Borders { names, counts }
    }

    pub fn names(&self) -> &[String] {
        &self.names
    }

    /// Counts a border that is among them.
    pub fn add_if(&mut self, holds: bool, name: &str) {
        if holds {
            *self.counts.get_mut(name).unwrap_or_else(|| panic!("no border {name}")) += 1;
        }
    }

    /// Prints a line for each, in their order.
    pub fn print(&self, output: &mut impl Write) -> io::Result<()> {
        for name in &self.names {
            writeln!(output, "{:>8}  {name}", self.counts[name])?;
        }
        Ok(())
    }
}

#[cfg(test)]
mod tests {
    use super::*;

    #[test]
    fn counts_in_their_order() {
        let mut borders = Borders::new(["b", "a", "c"].map(str::to_string).to_vec());
        borders.add_if(true, "a");
        borders.add_if(true, "a");
        borders.add_if(false, "b");
        borders.add_if(true, "c");
        let mut text = Vec::new();
        borders.print(&mut text).unwrap();
        assert_eq!(text, b"       0  b\n       2  a\n       1  c\n");
    }

    #[test]
    #[should_panic(expected = "no border d")]
    fn an_unknown_name_is_told() {
        Borders::new(Vec::new()).add_if(true, "d");
    }
}
