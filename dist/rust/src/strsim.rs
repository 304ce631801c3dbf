//! What clap uses of `strsim`: the similarity of two texts after Jaro, from 0 to 1.
use crate::kit_std::alloc::AllocError;
use std::collections::VecDeque as List;

pub fn jaro(a: &str, b: &str) -> Result<f64, AllocError> {
    let (a, b): (List<char>, List<char>) = (a.chars().collect(), b.chars().collect());
    if a.is_empty() && b.is_empty() {
        return Ok(1.0);
    }
    let range = (a.len().max(b.len()) / 2).saturating_sub(1);
    let mut used = b.iter().map(|_| false).collect::<List<bool>>();
    let mut mine = List::new();
    for (i, c) in a.iter().enumerate() {
        for j in i.saturating_sub(range)..b.len().min(i + range + 1) {
            if !used[j] && b[j] == *c {
                used[j] = true;
                mine.push_back(*c);
                break;
            }
        }
    }
    if mine.is_empty() {
        return Ok(0.0);
    }
    let theirs = b.iter().zip(&used).filter(|(_, used)| **used).map(|(c, _)| c);
    let turned = mine.iter().zip(theirs).filter(|(x, y)| x != y).count() / 2;
    let m = mine.len() as f64;
    Ok((m / a.len() as f64 + m / b.len() as f64 + (m - turned as f64) / m) / 3.0)
}
