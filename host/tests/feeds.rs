//! Whole feeds, record by record.

mod common;

use common::{amount, record_words, seed, Rng};

fn accepted(figure: u64) -> meter::Answer {
    meter::Answer {
        number: 0,
        place: 0,
        figure,
    }
}

/// Document 01's feed.
#[test]
fn example() {
    let feed = [
        0x1000_0051,
        0x5000_0001,
        0x7041_0000,
        0x8000_0000,
        0x8000_012c,
        0x6000_0001,
        0x7041_0000,
        0x4000_0007,
    ];
    let mut memory = [0; 36];
    assert_eq!(meter::feed_head(&feed), accepted(0x51));
    assert_eq!(meter::feed_record(1, 32, &mut memory, 1, &feed[1..]), accepted(0));
    assert_eq!(meter::feed_record(1, 32, &mut memory, 5, &feed[5..]), accepted(300));
    assert_eq!(meter::feed_record(1, 32, &mut memory, 7, &feed[7..]), accepted(0));
    assert_eq!([1, 5, 7].map(|at| meter::feed_taken(&feed[at..])), [4, 2, 1]);
}

/// A record does what the call does with its key and amount, whatever follows it. Cut short anywhere, it is refused for the missing
/// word and changes nothing.
#[test]
fn records_are_the_calls() {
    let mut rng = Rng::new(seed("records_are_the_calls"));
    let (mut records, mut cuts) = (0, 0);
    for _ in 0..300 {
        let (d, w) = (rng.within(1..9), 32usize << rng.below(4));
        let mut by_record = vec![0; d * w / 8 * 9];
        let mut by_call = by_record.clone();

        let mut feed = vec![0x1000_0000 | d as u32 | w.ilog2() << 4];
        assert_eq!(meter::feed_head(&feed), accepted(feed[0] as u64 % (1 << 28)));
        for _ in 0..rng.within(1..60) {
            let n = rng.within(1..65);
            let key = rng.bytes(n);
            let amount = rng.once_in(2).then(|| amount(&mut rng));
            let words = record_words(&key, amount);
            let start = feed.len();
            feed.extend(&words);

            let before = by_record.clone();
            for cut in 0..words.len() {
                let answer = meter::feed_record(d, w, &mut by_record, start as u64, &words[..cut]);
                assert_eq!((answer.number, answer.place, answer.figure), (8, cut as u64, 0));
                assert!(by_record == before, "a record cut short changes nothing");
                cuts += 1;
            }
            let expected = match amount {
                Some(amount) => meter::update(d, w, &mut by_call, &key, amount),
                None => meter::estimate(d, w, &by_call, &key),
            };
            let behind = rng.below(5);
            let longer = [words, (0..behind).map(|_| rng.next() as u32).collect()].concat();
            assert_eq!(meter::feed_record(d, w, &mut by_record, start as u64, &longer), expected);
            assert_eq!(meter::feed_taken(&longer), feed.len() - start);
            assert!(by_record == by_call, "the memory");
            records += 1;
        }
        let end = feed.len() as u64;
        for before in [end, end + (1 << 28), end + (1 << 60)] {
            let answer = meter::feed_record(d, w, &mut by_record, before, &[0x4000_0000 | end as u32]);
            assert_eq!(answer, accepted(0));
        }
        let answer = meter::feed_record(d, w, &mut by_record, end + 1, &[0x4000_0000 | end as u32]);
        assert_eq!((answer.number, answer.place), (9, 0));
        assert!(by_record == by_call, "an end changes nothing");
    }
    println!("{records} records, {cuts} cut short");
    assert!(records > 1_000);
}
