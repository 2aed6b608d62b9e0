//! Counted edits of a text: each says how often its old text stands there, and stops the build
//! with one line that names the place where the count is off.

pub struct Edit<'a> {
    pub old: &'a str,
    pub new: &'a str,
    pub count: usize,
}

pub fn edit<'a>(old: &'a str, new: &'a str, count: usize) -> Edit<'a> {
    Edit { old, new, count }
}

pub fn count(text: &str, part: &str) -> usize {
    text.matches(part).count()
}

pub fn apply(place: &str, text: &mut String, edits: &[Edit]) {
    for e in edits {
        let found = count(text, e.old);
        if found != e.count {
            stop(&format!(
                "{place}: {:?} stands there {found} times, not {}",
                e.old, e.count
            ));
        }
        *text = text.replace(e.old, e.new);
    }
}

/// The one part of `text` that begins with `from` and ends with the first `to` after it.
pub fn cut(place: &str, text: &str, from: &str, to: &str) -> String {
    if count(text, from) != 1 {
        stop(&format!("{place}: {from:?} does not stand there once"));
    }
    let tail = &text[text.find(from).unwrap()..];
    match tail.find(to) {
        Some(end) => tail[..end + to.len()].to_string(),
        None => stop(&format!("{place}: no {to:?} after {from:?}")),
    }
}

pub fn stop(line: &str) -> ! {
    println!("cargo:warning={}", line.replace('\n', " "));
    eprintln!("oracle: {line}");
    std::process::exit(1)
}
