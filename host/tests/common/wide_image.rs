//! An image that is too wide: of 2 rows of 65,536 slots, written while rows could be so wide.

/// Its words.
pub fn words() -> Vec<u32> {
    let text = include_str!("../../../tests/images/w-65536.txt");
    let mut words = Vec::new();
    for line in text.lines().filter(|line| !line.starts_with('#')) {
        match line.strip_prefix("clear ") {
            Some(count) => {
                let slots = [&[0x2000_0000][..], &[0x3000_0000; 32]].concat();
                words.extend(slots.repeat(count.parse().expect("a number")));
            }
            None => words.extend(line.split(' ').map(|word| u32::from_str_radix(word, 16).expect("a word"))),
        }
    }
    words
}
