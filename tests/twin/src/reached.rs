// Counts of what a run reached, each kind named beforehand.
// A kind that was not reached fails the run: a test that cannot fail is none.

#[derive(Clone)]
pub struct Reached {
    kinds: Vec<(String, u64)>,
    /// How often each kind has to come.
    least: u64,
}

impl Reached {
    pub fn expecting<S: ToString>(names: impl IntoIterator<Item = S>) -> Reached {
        Reached { kinds: names.into_iter().map(|name| (name.to_string(), 0)).collect(), least: 1 }
    }

    /// The same kinds, each to be reached so many times.
    pub fn at_least(self, least: u64) -> Reached {
        Reached { least, ..self }
    }

    /// Adds what another run over the same kinds reached.
    pub fn add(&mut self, other: &Reached) {
        for ((_, times), (_, more)) in self.kinds.iter_mut().zip(&other.kinds) {
            *times += more;
        }
    }

    /// Adds one to a kind that was named; a kind that was not is a slip in the program.
    pub fn count(&mut self, name: &str) {
        match self.kinds.iter_mut().find(|(kind, _)| kind == name) {
            Some((_, times)) => *times += 1,
            None => panic!("the kind `{name}` was not named beforehand"),
        }
    }

    pub fn times(&self, name: &str) -> u64 {
        self.kinds.iter().filter(|(kind, _)| kind == name).map(|(_, times)| times).sum()
    }

    /// Prints one line for each kind, in the order in which they were named; whether each was reached.
    pub fn report(&self) -> bool {
        for (kind, times) in &self.kinds {
            println!("  {kind}: {times}");
        }
        for kind in self.missing() {
            println!("NOT REACHED {} times: {kind}", self.least);
        }
        self.missing().is_empty()
    }

    /// The kinds that were not reached often enough.
    pub fn missing(&self) -> Vec<&str> {
        self.kinds.iter().filter(|(_, times)| *times < self.least).map(|(kind, _)| kind.as_str()).collect()
    }
}

#[cfg(test)]
mod tests {
    use super::*;

    #[test]
    fn what_was_not_reached_is_missing() {
        let mut reached = Reached::expecting(["one", "two"]);
        reached.count("one");
        assert_eq!((reached.times("one"), reached.missing()), (1, vec!["two"]));
    }

    #[test]
    fn what_was_reached_too_seldom_is_missing() {
        let mut reached = Reached::expecting(["one", "two"]).at_least(2);
        reached.count("one");
        reached.add(&reached.clone());
        assert_eq!((reached.times("one"), reached.missing()), (2, vec!["two"]));
    }
}
