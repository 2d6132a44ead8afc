//! The tables that have two others beside the library.

/// Those others are the second program's crossing and its inner functions.
pub fn head(first: &str) {
    head_of(first, ["crossing", "inner"]);
}

pub fn head_of(first: &str, [one, other]: [&str; 2]) {
    println!(
        "{first:<40}{:>10}{one:>10}{:>8}{other:>10}{:>8}",
        "library", "ratio", "ratio"
    );
}

pub fn row(name: &str, [library, one, other]: [f64; 3]) {
    let (to_one, to_other) = (one / library, other / library);
    println!("{name:<40}{library:>10.2}{one:>10.2}{to_one:>8.2}{other:>10.2}{to_other:>8.2}");
}
