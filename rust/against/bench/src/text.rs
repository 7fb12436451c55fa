//! Texts of more and less ASCII, judged and written by `encode_string`: what the port's UTF-8 test takes.

use crate::clock::{alternate, Figure};
use crate::inputs::Random;
use crate::work::Work;
use std::hint::black_box;

/// How much of a text is ASCII, in hundredths of its bytes.
pub const SHARES: [usize; 6] = [0, 10, 50, 90, 99, 100];

/// How many bytes a text has.
pub const LENGTHS: [usize; 3] = [12, 100, 8_000];

/// Characters of two, three and four bytes.
const OTHERS: [char; 7] = ['é', '日', 'ß', '語', 'Ω', '€', '𝄞'];

/// Every text, share by share.
pub fn all() -> Vec<String> {
    SHARES.iter().flat_map(|&share| LENGTHS.map(|length| text(share, length))).collect()
}

/// A text of so many bytes, its characters in no order. It has another character than ASCII where its share is below 100, so a
/// short text has less ASCII than its share.
fn text(share: usize, length: usize) -> String {
    let mut random = Random(1);
    let mut characters = Vec::new();
    let mut left = length * (100 - share) / 100;
    if share < 100 {
        left = left.max(2);
    }
    while left > 1 {
        let one = OTHERS[random.below(OTHERS.len())];
        let fits = if one.len_utf8() <= left { one } else { 'é' };
        left -= fits.len_utf8();
        characters.push(fits);
    }
    let other: usize = characters.iter().map(|one| one.len_utf8()).sum();
    characters.extend((other..length).map(|place| (b'a' + (place % 26) as u8) as char));
    for place in (1..characters.len()).rev() {
        characters.swap(place, random.below(place + 1));
    }
    characters.into_iter().collect()
}

/// The work on a text.
pub fn work(text: &str) -> Work<'_> {
    let mut out = vec![0; text.len() + 4];
    let agrees = sennorbai::encode_string(text.as_bytes(), &mut out).is_ok_and(|bytes| bytes.starts_with(text.as_bytes()));
    let times = move |n| {
        for _ in 0..n {
            black_box(sennorbai::encode_string(black_box(text.as_bytes()), &mut out).is_ok());
        }
    };
    Work { times: Box::new(times), agrees }
}

/// The times of every text.
pub fn time(texts: &[String]) -> Vec<Figure> {
    alternate(texts.iter().map(|text| Some(work(text))).collect()).into_iter().flatten().collect()
}
