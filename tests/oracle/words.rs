//! The words of a command line: names, each with a value behind it.

use std::str::FromStr;

pub struct Words(Vec<(String, String)>);

impl Words {
    /// Every word but the program's own name. Only these names are known.
    pub fn read(known: &[&str]) -> Words {
        let mut all = Vec::new();
        let mut args = std::env::args().skip(1);
        while let Some(a) = args.next() {
            let name = a.strip_prefix("--").filter(|n| known.contains(n)).unwrap_or_else(|| panic!("unknown word {}", a));
            all.push((name.to_string(), args.next().unwrap_or_else(|| panic!("{} takes a value", a))));
        }
        Words(all)
    }

    /// The last value that was given for a name.
    pub fn text(&self, name: &str) -> Option<&str> {
        self.0.iter().rev().find(|w| w.0 == name).map(|w| w.1.as_str())
    }

    pub fn number<T: FromStr>(&self, name: &str, default: T) -> T {
        self.text(name).map_or(default, |v| v.parse().unwrap_or_else(|_| panic!("--{} takes a number", name)))
    }
}
