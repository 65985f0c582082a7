//! The refusal numbers in words: 1 to 15 of a table, a state or a job, 16 to 21 of the fields.

const WORDS: [(u32, &str); 21] = [
    (1, "no task, or over 16"),
    (2, "task out of limits"),
    (3, "window too long"),
    (4, "too many places"),
    (5, "vector too short"),
    (6, "overloaded"),
    (7, "state misshapen"),
    (8, "overdue"),
    (9, "state does not fit"),
    (10, "bad work"),
    (11, "eight jobs wait"),
    (12, "never idle"),
    (13, "past the clock"),
    (14, "too late"),
    (15, "clock at its end"),
    (16, "cut"),
    (17, "unknown tag"),
    (18, "wrong length"),
    (19, "wrong order"),
    (20, "input too long"),
    (21, "run too long"),
];

/// The words of a number, if it is a refusal's.
pub fn words(number: u32) -> Option<&'static str> {
    WORDS.iter().find(|row| row.0 == number).map(|row| row.1)
}

/// The number with its words beside it.
pub fn told(number: u32) -> String {
    match words(number) {
        Some(words) => format!("{number} ({words})"),
        None => number.to_string(),
    }
}

#[cfg(test)]
mod tests {
    use super::*;

    #[test]
    fn each_number_has_its_words() {
        assert_eq!(words(1), Some("no task, or over 16"));
        assert_eq!(words(6), Some("overloaded"));
        assert_eq!(words(14), Some("too late"));
        assert_eq!(words(16), Some("cut"));
        assert_eq!(words(21), Some("run too long"));
        assert_eq!([0, 22, u32::MAX].map(words), [None; 3]);
        let all: std::collections::BTreeSet<_> = (1..=21).map(words).collect();
        assert_eq!(all.len(), 21);
    }

    #[test]
    fn words_stand_beside_the_number() {
        assert_eq!(told(11), "11 (eight jobs wait)");
        assert_eq!(told(22), "22");
    }
}
