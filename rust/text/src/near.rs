//! The known word that a mistyped one was likely meant to be.

/// The longest word, in characters, that others are compared with; the work grows with the square of it.
const LONGEST: usize = 100;

/// How much it takes to come from the first so many characters of one word to the first so many of another, if it is known for fewer.
fn least(known: &[Vec<usize>], from: &[char], to: &[char], (i, j): (usize, usize)) -> usize {
    if i == 0 || j == 0 {
        return i + j;
    }
    let changed = known[i - 1][j - 1] + usize::from(from[i - 1] != to[j - 1]);
    let least = changed.min(known[i - 1][j] + 1).min(known[i][j - 1] + 1);
    if i > 1 && j > 1 && from[i - 1] == to[j - 2] && from[i - 2] == to[j - 1] {
        return least.min(known[i - 2][j - 2] + 1);
    }
    least
}

/// How many characters must be put in, left out, changed, or exchanged with their neighbour to come from one word to the other.
fn changes(from: &[char], to: &[char]) -> usize {
    let mut known = vec![vec![0; to.len() + 1]; from.len() + 1];
    for i in 0..=from.len() {
        for j in 0..=to.len() {
            known[i][j] = least(&known, from, to, (i, j));
        }
    }
    known[from.len()][to.len()]
}

/// The known word that differs least from a mistyped one, if it differs little.
pub fn nearest<'a>(word: &str, known: impl Iterator<Item = &'a str>) -> Option<&'a str> {
    let word: Vec<char> = word.chars().collect();
    if word.len() > LONGEST {
        return None;
    }
    let few = (word.len() + 1) / 3;
    let far = |other: &[char]| other.len().abs_diff(word.len()) > few;
    let compared = known.filter_map(|other| {
        let letters: Vec<char> = other.chars().collect();
        (!far(&letters)).then(|| (changes(&word, &letters), other))
    });
    let (needed, near) = compared.min_by_key(|(needed, _)| *needed)?;
    (needed <= few).then_some(near)
}
