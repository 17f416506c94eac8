//! AFLs as made cards have them.

use crate::random::Random;

pub fn any_locator(r: &mut Random) -> Vec<[u8; 4]> {
    let entries = *r.pick(&[1, 1, 1, 2, 2, 3]);
    (0..entries)
        .map(|_| {
            let file = r.between(1, 10) as u8;
            let first = *r.pick(&[1, 1, 1, 2, 7, 200, 253]);
            let count = *r.pick(&[1, 1, 2, 2, 3]);
            let signed = r.below(usize::from(count) + 1) as u8;
            [8 * file, first, first + (count - 1), signed]
        })
        .collect()
}

/// An AFL of some entries, at least one, that names so many records.
pub fn dealt(records: usize, r: &mut Random) -> Vec<[u8; 4]> {
    let mut locator = Vec::new();
    let mut left = records;
    while left > 0 {
        // Ten at least, so that the entries fit in one answer.
        let count = r.between(10, 255).min(left);
        let first = r.between(1, 256 - count);
        let signed = r.below(count + 1) as u8;
        let file = 8 * r.between(1, 10) as u8;
        locator.push([file, first as u8, (first + count - 1) as u8, signed]);
        left -= count;
    }
    locator
}

#[cfg(test)]
mod tests {
    use super::*;
    use rules::answers::read_options;

    #[test]
    fn locators_name_as_many_as_they_should() {
        for records in 59..=501 {
            let locator = dealt(records, &mut Random::nth(2, records as u64)).concat();
            let value = [&[0, 0][..], &locator].concat();
            let answer = [&[0x80, 0x81, value.len() as u8][..], &value, &[0x90, 0x00]].concat();
            let read = read_options(&answer).map(|options| options.records.len());
            assert_eq!(read, if records <= 500 { Ok(records) } else { Err(7) });
        }
    }
}
