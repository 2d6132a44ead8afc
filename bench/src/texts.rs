//! The text check beside `std::str::from_utf8`.

#[cfg(not(wire_bench))]
pub fn print() {
    println!("Text check: left out, since WIRE_BENCH_DIR was not set when this was built.");
}

#[cfg(wire_bench)]
pub use measured::print;

#[cfg(wire_bench)]
mod measured {
    use crate::race::race;
    use std::hint::black_box;

    const LETTERS: usize = 50_000;

    extern "C" {
        fn textbench_is_utf8(text: *const u8, length: usize) -> bool;
    }

    fn is_utf8(text: &[u8]) -> bool {
        // SAFETY: pointer and length come from one slice, which the call only reads.
        unsafe { textbench_is_utf8(text.as_ptr(), text.len()) }
    }

    pub fn print() {
        println!(
            "{:<40}{:>10}{:>10}{:>8}",
            "Text check, 50,000 letters", "library", "std", "ratio"
        );
        row("plain", |_| 'a');
        row("every hundredth of two bytes", |index| every(100, index));
        row("every tenth of two bytes", |index| every(10, index));
        row("all of three bytes", |_| '\u{20ac}');
    }

    fn every(step: usize, index: usize) -> char {
        if index.is_multiple_of(step) {
            '\u{e9}'
        } else {
            'a'
        }
    }

    fn row(name: &str, letter: impl Fn(usize) -> char) {
        let text: String = (0..LETTERS).map(letter).collect();
        let text = text.as_bytes();
        assert!(is_utf8(text), "the library refuses a good text");
        let [library, std] = race([&mut || assert!(is_utf8(black_box(text))), &mut || {
            assert!(std::str::from_utf8(black_box(text)).is_ok())
        }]);
        println!("{name:<40}{library:>10.2}{std:>10.2}{:>8.2}", std / library);
    }
}
