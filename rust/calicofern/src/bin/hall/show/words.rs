//! Numbers and names as text.

use crate::table::grouped;

/// A length with as many digits as say something.
pub fn metres(length: f64) -> String {
    match length {
        0.0 => "0 m".to_string(),
        1e-3..1.0 => format!("{length:.3} m"),
        1.0..1e3 => format!("{length:.2} m"),
        1e3..1e9 => format!("{} m", grouped(length.round() as u64)),
        _ => format!("{length:.2e} m"),
    }
}

/// A round length, as scale bars have it.
pub fn round_metres(length: f64) -> String {
    match length {
        1e-3..1.0 => format!("{length} m"),
        1.0..1e9 => format!("{} m", grouped(length.round() as u64)),
        _ => format!("{length:e} m"),
    }
}

/// Text as it may stand in XML.
pub fn escaped(text: &str) -> String {
    text.replace('&', "&amp;").replace('<', "&lt;").replace('>', "&gt;").replace('"', "&quot;")
}

/// Text in lines of at most so many letters, but for longer words.
pub fn wrapped(text: &str, letters: usize) -> Vec<String> {
    let mut lines: Vec<String> = Vec::new();
    for word in text.split(' ') {
        match lines.last_mut() {
            Some(line) if line.len() + 1 + word.len() <= letters => *line = format!("{line} {word}"),
            _ => lines.push(word.to_string()),
        }
    }
    lines
}

#[cfg(test)]
mod tests {
    use super::*;
    use crate::mesh::Name;

    #[test]
    fn lengths_have_sensible_digits() {
        let lengths = [0.0, 0.45, 14.0, 123.456, 1234.5, 1e38, 1e-6].map(metres);
        assert_eq!(lengths, ["0 m", "0.450 m", "14.00 m", "123.46 m", "1,235 m", "1.00e38 m", "1.00e-6 m"]);
        assert_eq!([0.1, 10.0, 1e4, 1e20].map(round_metres), ["0.1 m", "10 m", "10,000 m", "1e20 m"]);
    }

    #[test]
    fn names_and_lines() {
        let name = Name { model: 1, geometry: 2 };
        assert_eq!((format!("{name}"), format!("{name:#}")), ("model 1 geometry 2".to_string(), "1.2".to_string()));
        assert_eq!(escaped("a<b & \"c\">"), "a&lt;b &amp; &quot;c&quot;&gt;");
        assert_eq!(wrapped("one two three", 8), ["one two", "three"]);
    }
}
