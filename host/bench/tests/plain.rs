//! The plain C version beside the independent implementation, so that the benchmark compares like with like.

#[path = "../../tests/common/mod.rs"]
mod common;

use bench::plain;
use common::{
    amount, key, lend_bytes, lend_words, memory, record, seed, signed_amount, signed_memory, some_image, Lent, Numbers, Rng,
};
use reference::Memory;

fn same<F: Copy + PartialEq + std::fmt::Debug>(
    call: &'static str,
    c: meter::Answer<F>,
    model: reference::Answer<F>,
    given: &mut Numbers,
) {
    assert_eq!(
        (c.number, c.place, c.figure),
        (model.number, model.place, model.figure),
        "{call}"
    );
    given.note(call, c.number);
}

fn compare(call: &str, c: &Lent<u8>, model: &Memory) {
    assert!(c.guards_stand() && c.get() == model.to_bytes(), "{call}: the memory");
}

#[test]
fn plain_c_follows_the_paper() {
    let mut rng = Rng::new(seed("plain_c_follows_the_paper"));
    let mut given = Numbers::default();
    for _ in 0..40_000 {
        let (d, w) = (rng.within(1..9), rng.pick(&[32, 64, 128]));
        let (bytes, source) = (memory(&mut rng, d, w), memory(&mut rng, d, w));
        let (key, amount) = (key(&mut rng), amount(&mut rng));
        let mut c = lend_bytes(&bytes);
        let mut model = Memory::new(&bytes);

        let a = plain::estimate(d, w, c.get(), &key);
        same("estimate", a, reference::estimate(d, w, &mut model, &key), &mut given);
        let a = plain::update(d, w, c.get_mut(), &key, amount);
        same("update", a, reference::update(d, w, &mut model, &key, amount), &mut given);
        compare("update", &c, &model);

        let words = record(&mut rng, 3, &key);
        let a = plain::feed_record(d, w, c.get_mut(), 3, &words);
        same(
            "feed_record",
            a,
            reference::feed_record(d, w, &mut model, 3, &words).0,
            &mut given,
        );
        compare("feed_record", &c, &model);

        let a = plain::unite(d, w, c.get_mut(), &source);
        same(
            "unite",
            a,
            reference::unite(d, w, &mut model, &mut Memory::new(&source)),
            &mut given,
        );
        compare("unite", &c, &model);

        let mut words = lend_words(&vec![7; rng.within(0..2 * d * w)]);
        let mut expected = words.get().to_vec();
        let a = plain::image_write(d, w, c.get(), words.get_mut());
        same(
            "image_write",
            a,
            reference::image_write(d, w, &mut model, &mut expected),
            &mut given,
        );
        assert!(words.guards_stand() && words.get() == expected, "image_write: the words");

        let words = some_image(&mut rng, d, w, &mut model.clone());
        let a = plain::image_read(d, w, c.get_mut(), &words);
        same("image_read", a, reference::image_read(d, w, &mut model, &words), &mut given);
        compare("image_read", &c, &model);
        if rng.once_in(50) {
            let (d, w) = (rng.within(0..10), rng.pick(&[0, 32, 33, 64, 16_384, 32_768]));
            same(
                "clear",
                plain::clear(d, w, c.get_mut()),
                reference::clear(d, w, &mut model),
                &mut given,
            );
            compare("clear", &c, &model);
        }
    }
    println!("{given:?}");
}

#[test]
fn plain_signed_c_follows_the_paper() {
    let mut rng = Rng::new(seed("plain_signed_c_follows_the_paper"));
    let mut given = Numbers::default();
    for _ in 0..60_000 {
        let (d, w) = (rng.pick(&[1, 3, 5, 7]), rng.pick(&[32, 64, 128]));
        let bytes = signed_memory(&mut rng, d, w);
        let mut c = lend_bytes(&bytes);
        let mut model = bytes;
        let compare = |call: &str, c: &Lent<u8>, model: &[u8]| {
            assert!(c.guards_stand() && c.get() == model, "{call}: the memory");
        };
        for _ in 0..3 {
            let (key, amount) = (key(&mut rng), signed_amount(&mut rng));
            let a = plain::signed_estimate(d, w, c.get(), &key);
            same("estimate", a, reference::signed_estimate(d, w, &model, &key), &mut given);
            let a = plain::signed_update(d, w, c.get_mut(), &key, amount);
            same(
                "update",
                a,
                reference::signed_update(d, w, &mut model, &key, amount),
                &mut given,
            );
            compare("update", &c, &model);
        }
        let source = signed_memory(&mut rng, d, w);
        let a = plain::signed_unite(d, w, c.get_mut(), &source);
        same("unite", a, reference::signed_unite(d, w, &mut model, &source), &mut given);
        compare("unite", &c, &model);
        let source = signed_memory(&mut rng, d, w);
        let a = plain::signed_subtract(d, w, c.get_mut(), &source);
        same(
            "subtract",
            a,
            reference::signed_subtract(d, w, &mut model, &source),
            &mut given,
        );
        compare("subtract", &c, &model);
        if rng.once_in(50) {
            let (d, w) = (rng.within(0..10), rng.pick(&[0, 32, 33, 64, 16_384, 32_768]));
            same(
                "clear",
                plain::signed_clear(d, w, c.get_mut()),
                reference::signed_clear(d, w, &mut model),
                &mut given,
            );
            compare("clear", &c, &model);
        }
    }
    given.finish(&[
        ("clear", &[0, 1, 2, 3, 12]),
        ("update", &[0, 4, 5, 6, 13]),
        ("estimate", &[0, 4, 5, 13]),
        ("unite", &[0, 5, 6, 13]),
        ("subtract", &[0, 5, 6, 13]),
    ]);
}
