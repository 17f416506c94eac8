use super::*;
use rules::hex;

const RECORD: Asked = Asked::Record { with_verification: true };

/// One answer of each kind and form, bare and full.
const ANSWERS: [(Asked, &str); 9] = [
    (Asked::Select, "6F098405A000000003A5009000"),
    (Asked::Select, "6F218407A0000000031010A51650084C414220434152449F38099F02069F1A025F2A029000"),
    (Asked::Options, "80060800080101009000"),
    (Asked::Options, "770A820208009404080101009000"),
    (Asked::Options, "770A940408010100820208009000"),
    (RECORD, "70009000"),
    (RECORD, "701B5A0847617390010100105F24032812315F25032401019F080200019000"),
    (Asked::Cryptogram, "8012800012112233445566778806010A03A0B0009000"),
    (Asked::Cryptogram, "77149F2701409F360200019F260811223344556677889000"),
];

fn answers() -> Vec<(Asked, Vec<u8>)> {
    let mut all: Vec<(Asked, Vec<u8>)> =
        ANSWERS.iter().map(|(asked, text)| (*asked, hex::bytes(text).unwrap())).collect();
    // So long that there is no room, or very little.
    for size in [248, 249, 250, 251, 252] {
        let list = [&[0x70, 0x81, size as u8 + 3, 0x8E, 0x81, size as u8][..], &vec![0; size]];
        all.push((RECORD, [list.concat(), vec![0x90, 0x00]].concat()));
    }
    all
}

#[test]
fn what_is_seen_stays() {
    for (asked, bytes) in answers() {
        let before = Answer::read(asked, &bytes).unwrap();
        let mut different = 0;
        for index in 0..500 {
            for zeal in [Zeal::Chance, Zeal::Everything] {
                let after = dressed(asked, &bytes, zeal, &mut Random::nth(1, index));
                assert!(after.len() <= LONGEST_ANSWER.max(bytes.len()));
                let after_read = Answer::read(asked, &after).expect("one object");
                assert_eq!(after_read.seen(), before.seen(), "{}", hex::text(&after));
                assert_eq!(after[after.len() - 2..], bytes[bytes.len() - 2..]);
                different += usize::from(after != bytes);
            }
        }
        assert!(bytes.len() > 200 || different > 900, "{} {different}", hex::text(&bytes));
    }
}

/// Whether an answer has an ignored object, '00' bytes and a long length.
fn worn(answer: &Answer) -> [bool; 3] {
    let lists: Vec<&List> = answer.data.paths().iter().filter_map(|p| answer.data.at(p)).collect();
    let places = answer.places();
    let ignored = places.iter().any(|(path, named)| {
        answer.data.at(path).is_some_and(|l| l.pieces.iter().any(|p| !named.contains(&p.tag)))
    });
    let zeros = lists.iter().any(|l| l.zeros > 0 || l.pieces.iter().any(|p| p.zeros > 0));
    let long = answer.data.pieces[0].length_size > 1;
    [ignored, zeros, long]
}

#[test]
fn everything_is_put_on() {
    for (asked, text) in ANSWERS {
        let bytes = hex::bytes(text).unwrap();
        let before = Answer::read(asked, &bytes).unwrap();
        for index in 0..100 {
            let after = dressed(asked, &bytes, Zeal::Everything, &mut Random::nth(2, index));
            let after = Answer::read(asked, &after).unwrap();
            let forms = before.in_other_form().is_some();
            assert_eq!(after.data.pieces[0].tag != before.data.pieces[0].tag, forms);
            let joined = after.data.pieces[0].tag == 0x80;
            assert_eq!(worn(&after), [!joined, true, true], "{}", hex::text(&after.bytes()));
        }
    }
}

/// By chance there is everything, too, and answers that fill 258 bytes.
#[test]
fn chance_does_it_all() {
    let (mut nested, mut full, mut twice, mut inside) = (0, 0, 0, 0);
    for index in 0..2000 {
        let (asked, text) = ANSWERS[index as usize % ANSWERS.len()];
        let bytes = hex::bytes(text).unwrap();
        let after = dressed(asked, &bytes, Zeal::Chance, &mut Random::nth(3, index));
        full += usize::from(after.len() == LONGEST_ANSWER);
        let after = Answer::read(asked, &after).unwrap();
        nested += usize::from(after.data.paths().iter().any(|path| path.len() > 3));
        for (path, named) in after.places() {
            let pieces = &after.data.at(&path).unwrap().pieces;
            let tags: Vec<u16> =
                pieces.iter().map(|p| p.tag).filter(|tag| !named.contains(tag)).collect();
            twice += usize::from((1..tags.len()).any(|at| tags[..at].contains(&tags[at])));
            let holds_named = |piece: &Piece| match &piece.value {
                Value::List(list) => list.pieces.iter().any(|p| named.contains(&p.tag)),
                Value::Bytes(_) => false,
            };
            let ignored = pieces.iter().filter(|p| !named.contains(&p.tag));
            inside += usize::from(ignored.into_iter().any(holds_named));
        }
    }
    assert!(
        nested > 20 && full > 20 && twice > 100 && inside > 20,
        "{nested} {full} {twice} {inside}"
    );
}
