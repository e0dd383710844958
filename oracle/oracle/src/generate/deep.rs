//! Depths around the deepest that is read.

use super::rng::Rng;

pub fn text(rng: &mut Rng) -> Vec<u8> {
    let depth = rng.between(61, 67);
    let mixes: [&[&str]; 4] = [&["["], &["{"], &["("], &["[", "{", "("]];
    let mix = rng.pick(&mixes);
    let brackets: Vec<&str> = (0..depth).map(|_| rng.pick(mix)).collect();
    let outermost_map = rng.chance(40);
    let in_keys = rng.chance(15);

    let mut open = String::new();
    let mut close = Vec::new();
    if outermost_map {
        open += rng.pick(&["a:", "a: 1, b: ", "// c\na:\n"]);
    }
    for (i, bracket) in brackets.iter().enumerate() {
        let innermost = i + 1 == depth;
        let (before, after) = surroundings(bracket, innermost, in_keys, rng);
        open += &before;
        close.push(after);
    }
    let middle = middle(brackets[depth - 1], rng);
    close.reverse();
    let mut text = open + middle + &close.concat();
    if rng.chance(10) {
        spoil(&mut text, rng);
    }
    text.into_bytes()
}

/// What stands before and after the inside of a container.
fn surroundings(
    bracket: &str,
    innermost: bool,
    in_keys: bool,
    rng: &mut Rng,
) -> (String, &'static str) {
    // A neighbour now and then, which changes no depth.
    let neighbour = if !innermost && rng.chance(3) {
        rng.pick(&["1,", "// c\n", "\"s\" "])
    } else {
        ""
    };
    match bracket {
        "[" => (format!("[{neighbour}"), "]"),
        "(" => {
            let name = rng.pick(&["\"A\"", "'B' ", "\"\"\"\"\"\"", "'''c'''"]);
            (format!("{name}({neighbour}"), ")")
        }
        _ if innermost => ("{".to_owned(), "}"),
        _ if in_keys => ("{".to_owned(), ":1}"),
        _ => ("{k:".to_owned(), "}"),
    }
}

fn middle(bracket: &str, rng: &mut Rng) -> &'static str {
    match bracket {
        "{" => rng.pick(&["", "", "a:1", "a", "// c\n", "a:1 // c\n", "]"]),
        _ => rng.pick(&["", "", "1", "\"s\"", "a, b", "// c\n", "1 // c\n", "#", ":"]),
    }
}

/// Cuts the text off or exchanges one bracket; all places are ASCII.
fn spoil(text: &mut String, rng: &mut Rng) {
    let place = rng.below(text.len());
    if rng.chance(50) {
        text.truncate(place);
    } else {
        let other = rng.pick(&["]", "}", ")", "[", "("]);
        text.replace_range(place..=place, other);
    }
}
