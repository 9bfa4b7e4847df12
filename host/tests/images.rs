//! Images written and read back: every meter is restored byte for byte, and no words are accepted but those that are written.

mod common;
#[path = "common/wide_image.rs"]
mod wide_image;

use common::{memory, seed, widths, Rng};
use meter::{Meter, Reason, Refused, LARGEST_WIDTH};

fn image(d: usize, w: usize, bytes: &[u8]) -> Option<Vec<u32>> {
    let mut words = vec![0x5555_5555; 3 * d * w + 2];
    let answer = meter::image_write(d, w, bytes, &mut words);
    let count = answer.result().ok()? as usize;
    assert!(words[count..].iter().all(|&x| x == 0x5555_5555), "words past the image stay");
    words.truncate(count);
    Some(words)
}

/// A written image is accepted by a memory of any content, and restores the meter.
#[test]
fn round_trips() {
    let mut rng = Rng::new(seed("round_trips"));
    let mut restored = 0;
    let mut sizes: Vec<(usize, usize)> = (0..3_000).map(|_| (rng.within(1..9), 32 << rng.below(4))).collect();
    sizes.extend([(8, LARGEST_WIDTH), (1, LARGEST_WIDTH), (8, 32), (5, 4_096)].repeat(4));
    for (d, w) in sizes {
        let bytes = memory(&mut rng, d, w);
        let Some(words) = image(d, w, &bytes) else { continue };
        let mut other = memory(&mut rng, d, w);
        let answer = meter::image_read(d, w, &mut other, &words);
        assert_eq!((answer.number, answer.place, answer.figure), (0, 0, words.len() as u64));
        assert!(other == bytes, "d {d}, w {w}: the memory is restored");
        restored += 1;
    }
    println!("{restored} meters restored from their images");
    assert!(restored > 2_000);
}

/// Words that are accepted are the image of what was read.
#[test]
fn accepted_words_are_an_image() {
    let mut rng = Rng::new(seed("accepted_words_are_an_image"));
    let (mut accepted, mut refused) = (0, 0);
    for _ in 0..30_000 {
        let (d, w) = (rng.within(1..4), 32);
        let bytes = memory(&mut rng, d, w);
        let Some(mut words) = image(d, w, &bytes) else { continue };
        // Most changes of a low payload bit leave an image, most others do not.
        let at = rng.below(words.len());
        words[at] ^= 1 << rng.below(32);
        let before = memory(&mut rng, d, w);
        let mut other = before.clone();
        let answer = meter::image_read(d, w, &mut other, &words);
        if answer.number == 0 {
            assert!(image(d, w, &other) == Some(words), "accepted words are what is written");
            accepted += 1;
        } else {
            assert!(other == before, "a refused image leaves the memory");
            assert!((at as u64) <= answer.place, "the words before the change are sound");
            refused += 1;
        }
    }
    println!("{accepted} changed images accepted, {refused} refused");
    assert!(accepted > 1_000 && refused > 1_000);
}

/// Document 01's clear image of d 1, w 32.
#[test]
fn clear_image() {
    let mut expected = vec![0x1000_0051, 0x2000_0000];
    expected.extend([0x3000_0000; 32]);
    expected.push(0x4000_0022);
    assert_eq!(image(1, 32, &[0; 36]), Some(expected));
}

/// An image that was written while rows could be wider is refused for its head: with 10 by a call for any meter that there is, and with 2
/// where the head decides which meter is made. Nothing else is wrong with it: under the head of 8 rows of 16,384 slots, which are as many,
/// its words are an image.
#[test]
fn an_image_of_wider_rows() {
    let words = wide_image::words();
    assert_eq!((words.len(), words[0]), (135_152, 0x1000_0102));
    for d in 1..=8 {
        for w in widths() {
            let before = vec![0xee; meter::size(d, w).expect("a meter")];
            let mut memory = before.clone();
            let answer = meter::image_read(d, w, &mut memory, &words);
            assert_eq!((answer.number, answer.place, answer.figure), (10, 0, 0), "d {d}, w {w}");
            assert!(memory == before, "d {d}, w {w}: a refused image leaves the memory");
        }
    }
    // The call of then, with the memory of then.
    let before = vec![0xee; 2 * 65_536 / 8 * 9];
    let mut memory = before.clone();
    let answer = meter::image_read(2, 65_536, &mut memory, &words);
    assert_eq!((answer.number, answer.place, answer.figure), (2, 0, 0));
    assert!(memory == before, "a refused image leaves the memory");

    let head = meter::feed_head(&words);
    assert_eq!((head.number, head.place, head.figure), (2, 0, 0));
    let refused = |reason| Refused { reason, place: 0 };
    assert_eq!(Meter::from_image(&words), Err(refused(Reason::Width)));
    let mut meter = Meter::new(2, LARGEST_WIDTH).expect("a meter");
    assert_eq!(meter.read_image(&words), Err(refused(Reason::OtherGeometry)));

    let narrower = [&[0x1000_00e8], &words[1..]].concat();
    let meter = Meter::from_image(&narrower).expect("an image");
    assert_eq!((meter.d(), meter.w(), meter.widest()), (8, LARGEST_WIDTH, Ok(3)));
}
