//! The words of the command.

/// How the program is called.
pub const USAGE: &str = "usage: compare [--cases N] [--seed S], compare record [--seed S], or compare clock";

/// What is asked for.
#[derive(Clone, Copy, Debug, PartialEq, Eq)]
pub enum Wanted {
    Compare { cases: u64, seed: u64 },
    Record { seed: u64 },
    Clock,
}

/// What the words ask for; none where one is not known, is there twice or is no number.
pub fn wanted(words: &[String]) -> Option<Wanted> {
    if words == ["clock"] {
        return Some(Wanted::Clock);
    }
    let (record, mut left) = match words.split_first() {
        Some((first, rest)) if first == "record" => (true, rest.iter()),
        _ => (false, words.iter()),
    };
    let (mut cases, mut seed) = (None, None);
    while let Some(word) = left.next() {
        let place = match word.as_str() {
            "--cases" if !record => &mut cases,
            "--seed" => &mut seed,
            _ => return None,
        };
        let number = left.next()?.parse().ok()?;
        if place.replace(number).is_some() {
            return None;
        }
    }
    let seed = seed.unwrap_or(1);
    Some(if record { Wanted::Record { seed } } else { Wanted::Compare { cases: cases.unwrap_or(100_000), seed } })
}

#[cfg(test)]
mod tests {
    use super::*;

    fn of(words: &str) -> Option<Wanted> {
        wanted(&words.split_whitespace().map(str::to_string).collect::<Vec<_>>())
    }

    #[test]
    fn known_words_are_taken() {
        assert_eq!(of(""), Some(Wanted::Compare { cases: 100_000, seed: 1 }));
        assert_eq!(of("--seed 7 --cases 5"), Some(Wanted::Compare { cases: 5, seed: 7 }));
        assert_eq!(of("record --seed 3"), Some(Wanted::Record { seed: 3 }));
        assert_eq!(of("clock"), Some(Wanted::Clock));
    }

    #[test]
    fn all_others_are_refused() {
        for words in [
            "--case 5",
            "--cases",
            "--cases five",
            "--cases -1",
            "--cases 1 --cases 2",
            "5",
            "record --cases 5",
            "--seed 1 record",
            "clock --seed 1",
            "clock clock",
        ] {
            assert_eq!(of(words), None, "{words}");
        }
    }
}
