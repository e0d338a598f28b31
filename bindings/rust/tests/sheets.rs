//! P1 to P10 (docs/RULES.md), and one call of each other function, through the archive.
use vuolmaset::{
    convert, expression_precedence, pattern, precedence, read, record_sentence, refusal_sentence, subtree, three_way, Counts, Refused, Tristate, STACK,
};

type Row = [u32; 6];

struct Sheet {
    kinds: &'static [u8],
    want: Result<(&'static [Row], &'static [[u32; 2]], usize), Refused>,
}

const SHEETS: [Sheet; 10] = [
    // [a, b] = c
    Sheet {
        kinds: &[20, 1, 24, 1, 21, 63, 1],
        want: Ok((&[[40, 1, 1, 2, 0, 1], [40, 3, 3, 4, 0, 1], [42, 0, 0, 5, 2, 3], [1, 6, 6, 7, 0, 1], [25, 5, 0, 7, 2, 5]], &[], 0)),
    },
    // (a, b)
    Sheet {
        kinds: &[18, 1, 24, 1, 19],
        want: Ok((&[[1, 1, 1, 2, 0, 1], [1, 3, 3, 4, 0, 1], [27, 2, 1, 4, 2, 3], [4, 0, 0, 5, 1, 4]], &[], 1)),
    },
    // (a, b) => a
    Sheet {
        kinds: &[18, 1, 24, 1, 19, 29, 1],
        want: Ok((&[[30, 1, 1, 2, 0, 1], [30, 3, 3, 4, 0, 1], [1, 6, 6, 7, 0, 1], [28, 5, 0, 7, 3, 4]], &[], 0)),
    },
    // ((a)) = b
    Sheet {
        kinds: &[18, 18, 1, 19, 19, 63, 1],
        want: Ok((&[[40, 2, 2, 3, 0, 1], [41, 1, 1, 4, 1, 2], [41, 0, 0, 5, 1, 3], [1, 6, 6, 7, 0, 1], [25, 5, 0, 7, 2, 5]], &[], 1)),
    },
    // ({a}) = b
    Sheet { kinds: &[18, 22, 1, 23, 19, 63, 1], want: Err(Refused { number: 9, place: 0 }) },
    // {...[a]} = b
    Sheet {
        kinds: &[22, 28, 20, 1, 21, 23, 63, 1],
        want: Ok((
            &[[40, 3, 3, 4, 0, 1], [42, 2, 2, 5, 1, 2], [44, 1, 1, 5, 1, 3], [43, 0, 0, 6, 1, 4], [1, 7, 7, 8, 0, 1], [25, 6, 0, 8, 2, 6]],
            &[[3, 2]],
            0,
        )),
    },
    // [...a,] = b
    Sheet {
        kinds: &[20, 28, 1, 24, 21, 63, 1],
        want: Ok((&[[40, 2, 2, 3, 0, 1], [44, 1, 1, 3, 1, 2], [42, 0, 0, 5, 1, 3], [1, 6, 6, 7, 0, 1], [25, 5, 0, 7, 2, 5]], &[[4, 0]], 0)),
    },
    // [...a, b] = c
    Sheet { kinds: &[20, 28, 1, 24, 1, 21, 63, 1], want: Err(Refused { number: 10, place: 1 }) },
    // a - b + c
    Sheet {
        kinds: &[1, 58, 1, 57, 1],
        want: Ok((&[[1, 0, 0, 1, 0, 1], [1, 2, 2, 3, 0, 1], [22, 1, 0, 3, 2, 3], [1, 4, 4, 5, 0, 1], [22, 3, 0, 5, 2, 5]], &[], 0)),
    },
    // a ?? b || c
    Sheet {
        kinds: &[1, 38, 1, 39, 1],
        want: Ok((&[[1, 0, 0, 1, 0, 1], [1, 2, 2, 3, 0, 1], [1, 4, 4, 5, 0, 1], [23, 3, 2, 5, 2, 3], [23, 1, 0, 5, 2, 5]], &[[6, 1]], 0)),
    },
];

#[test]
fn sheets() {
    for sheet in &SHEETS {
        let flags = vec![0; sheet.kinds.len()];
        let mut rows = vec![9; 6 * sheet.kinds.len() + 2];
        let mut records = vec![9; 2 * sheet.kinds.len() + 2];
        let got = read(sheet.kinds, &flags, &mut rows, &mut records);
        let (mut all_rows, mut all_records) = (vec![], vec![]);
        match sheet.want {
            Ok((want, said, abandoned)) => {
                assert_eq!(got, Ok(Counts { rows: want.len(), records: said.len(), abandoned }), "{:?}", sheet.kinds);
                all_rows = want.concat();
                all_records = said.concat();
            }
            Err(refused) => assert_eq!(got, Err(refused), "{:?}", sheet.kinds),
        }
        all_rows.resize(rows.len(), 0);
        all_records.resize(records.len(), 0);
        assert_eq!(rows, all_rows, "{:?}", sheet.kinds);
        assert_eq!(records, all_records, "{:?}", sheet.kinds);
    }
}

#[test]
fn nothing_is_asked_of_the_caller() {
    assert_eq!(read(&[], &[], &mut [], &mut []), Err(Refused { number: 1, place: 0 }));
    let mut rows = [9; 6];
    assert_eq!(read(&[1], &[0], &mut rows, &mut [9]), Err(Refused { number: 4, place: 0 }));
    assert_eq!(rows, [9; 6]);
    assert_eq!(convert(&mut [], 7, &mut []), Err(Refused { number: 1, place: 0 }));
    assert_eq!(three_way(&[1], &[0], false, false, usize::MAX), Err(Refused { number: 14, place: 0 }));
    assert_eq!(subtree(&[1, 2, 3], usize::MAX), &[]);
}

#[test]
fn a_tree_is_six_words_a_row() {
    // [a, b] = c, into buffers that are longer than its rows
    let (mut rows, mut records) = ([9; 42], [9; 14]);
    let counts = read(SHEETS[0].kinds, &[0; 7], &mut rows, &mut records).expect("it is read");
    let words = 6 * counts.rows;
    assert_eq!(subtree(&rows, 2), &[]);
    assert_eq!(convert(&mut rows, 3, &mut records), Err(Refused { number: 13, place: 0 }));
    assert_eq!(subtree(&rows[..words], 2), &rows[..18]);
    assert_eq!(convert(&mut rows[..words], 3, &mut records), Ok(Counts { rows: 1, records: 0, abandoned: 0 }));
    assert_eq!(rows[18], 40);
}

#[test]
fn the_stack_is_enough() {
    // 64 times `( ... a =`, in a thread with so much stack and what a thread takes itself
    let read = || {
        let kinds = [18, 28, 1, 63].repeat(64);
        read(&kinds, &[0; 256], &mut [0; 6 * 256], &mut [0; 2 * 256])
    };
    let thread = std::thread::Builder::new().stack_size(STACK + 65_536).spawn(read).expect("a thread");
    assert_eq!(thread.join().expect("an answer"), Err(Refused { number: 8, place: 256 }));
}

#[test]
fn numbers_have_sentences() {
    assert_eq!(refusal_sentence(9), Some("this is not an assignment target"));
    assert_eq!(record_sentence(2), Some("a rest has no initializer"));
    assert!((1..=14).all(|number| refusal_sentence(number).is_some()) && (1..=8).all(|number| record_sentence(number).is_some()));
    assert_eq!([0, 15, u32::MAX].map(refusal_sentence), [None; 3]);
    assert_eq!([0, 9, u32::MAX].map(record_sentence), [None; 3]);
    assert_eq!(Refused { number: 9, place: 4 }.to_string(), "refusal 9 at 4: this is not an assignment target");
    assert_eq!(Refused { number: 15, place: 0 }.to_string(), "refusal 15 at 0: no such number");
}

#[test]
fn the_other_functions() {
    // [a] = 1 as a pattern
    let (mut rows, mut records) = ([0; 30], [0; 10]);
    assert_eq!(pattern(&[20, 1, 21, 63, 12], &[0; 5], &mut rows, &mut records), Ok(Counts { rows: 4, records: 0, abandoned: 0 }));
    assert_eq!(rows[..24].chunks(6).map(|row| row[0]).collect::<Vec<_>>(), [30, 31, 3, 34]);
    assert_eq!(subtree(&rows[..24], 1), &rows[..12]);
    // [a] becomes a target
    let mut tree = [1, 1, 1, 2, 0, 1, 5, 0, 0, 3, 1, 2];
    assert_eq!(convert(&mut tree, 1, &mut [0; 4]), Ok(Counts { rows: 2, records: 0, abandoned: 0 }));
    assert_eq!((tree[0], tree[6]), (40, 42));
    assert_eq!(three_way(&[18, 19, 29], &[0; 3], false, false, 0), Ok(Tristate::True));
    assert_eq!(three_way(&[18, 1, 19], &[0; 3], false, false, 0), Ok(Tristate::Maybe));
    assert_eq!(three_way(&[18, 12, 19], &[0; 3], false, false, 0), Ok(Tristate::False));
    // `() :` is a head in TypeScript alone, `< a ,` in JSX for certain
    assert_eq!(three_way(&[18, 19, 25], &[0; 3], false, true, 0), Ok(Tristate::False));
    assert_eq!(three_way(&[18, 19, 25], &[0; 3], true, false, 0), Ok(Tristate::True));
    assert_eq!(three_way(&[48, 1, 24], &[0; 3], true, false, 0), Ok(Tristate::Maybe));
    assert_eq!(three_way(&[48, 1, 24], &[0; 3], false, true, 0), Ok(Tristate::True));
    assert_eq!((precedence(3), expression_precedence(3), precedence(62), precedence(255)), (8, 0, 12, 0));
}
