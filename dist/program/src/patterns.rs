//! What patterns find, beside patterns.txt, which dist/patterns writes by Python's `re`: a line of texts, then for each pattern a digit for each text,
//! and one for each whose end is not known; then what is wrong with texts that are no patterns, and behind how many bytes. Each is in hexadecimal
//! digits behind an `x`.
use crate::cqlp_pattern::Pattern;

fn text_of(word: &str) -> String {
    let digits = word.strip_prefix('x').unwrap();
    let bytes = (0..digits.len()).step_by(2).map(|at| u8::from_str_radix(&digits[at..at + 2], 16).unwrap());
    String::from_utf8(bytes.collect()).unwrap()
}

#[test]
fn patterns_find_what_others_find() {
    let mut lines = include_str!("patterns.txt").lines();
    let texts: Vec<String> = lines.next().unwrap().split(' ').map(text_of).collect();
    let mut counts = [0, 0];
    for line in lines {
        let (pattern, wanted) = line.split_once(' ').unwrap();
        let text = text_of(pattern);
        match Pattern::new(&text) {
            Ok(pattern) => {
                let found = [true, false].iter().flat_map(|is_whole| texts.iter().map(|text| pattern.is_match(text.as_bytes(), *is_whole)));
                let found: String = found.map(|found| if found { '1' } else { '0' }).collect();
                assert_eq!(found, wanted, "{text}");
                counts[0] += 1;
            }
            Err(bad) => {
                assert_eq!(format!("{:?} {}", bad.fault, bad.at), wanted, "{text}");
                counts[1] += 1;
            }
        }
    }
    assert_eq!(counts, [94, 32]);
}
