//! Which files of a folder are meant, by patterns as a shell has them.

use std::path::Path;

/// Patterns, of which the last that a file fits decides.
#[derive(Clone, Debug, Default)]
pub struct Globs(Vec<Glob>);

/// A pattern: of a file's name, or of its path below the folder where it has a `/`. After a `!` it leaves files out.
#[derive(Clone, Debug)]
struct Glob {
    pattern: Vec<u8>,
    is_path: bool,
    leaves_out: bool,
}

impl Globs {
    pub fn of<'p>(patterns: impl IntoIterator<Item = &'p [u8]>) -> Self {
        let glob = |pattern: &[u8]| {
            let (leaves_out, pattern) = match pattern.strip_prefix(b"!") {
                Some(pattern) => (true, pattern),
                None => (false, pattern),
            };
            let is_path = pattern.contains(&b'/');
            let pattern = pattern.strip_prefix(b"/").unwrap_or(pattern).to_vec();
            Glob {
                pattern,
                is_path,
                leaves_out,
            }
        };
        Self(patterns.into_iter().map(glob).collect())
    }

    /// Whether a file below the folder is meant. Where every pattern leaves files out, all others are.
    pub fn fit(&self, below: &Path) -> bool {
        let path = below.as_os_str().as_encoded_bytes();
        let name = below.file_name().unwrap_or_default().as_encoded_bytes();
        let fits = |glob: &&Glob| fits(&glob.pattern, if glob.is_path { path } else { name });
        match self.0.iter().rev().find(fits) {
            Some(glob) => !glob.leaves_out,
            None => self.0.iter().all(|glob| glob.leaves_out),
        }
    }
}

/// Whether a text fits a pattern: `?` is any byte but `/`, `*` any number of them, `**` any number of bytes, `[a-z]` one of those, `[!a-z]`
/// one of the others; a `\` takes away what the next byte means.
fn fits(pattern: &[u8], text: &[u8]) -> bool {
    match pattern {
        [] => text.is_empty(),
        [b'*', b'*', b'/', rest @ ..] if fits(rest, text) => true,
        [b'*', b'*', rest @ ..] => (0..=text.len()).any(|len| fits(rest, &text[len..])),
        [b'*', rest @ ..] => {
            let most = text.iter().position(|byte| *byte == b'/');
            let most = most.unwrap_or(text.len());
            (0..=most).any(|len| fits(rest, &text[len..]))
        }
        [b'?', rest @ ..] => {
            matches!(text, [byte, after @ ..] if *byte != b'/' && fits(rest, after))
        }
        [b'[', set @ ..]
            if set.iter().skip(2).any(|byte| *byte == b']') || set.get(1) == Some(&b']') =>
        {
            let [byte, after @ ..] = text else {
                return false;
            };
            let (is_in, rest) = one_of(set, *byte);
            is_in && *byte != b'/' && fits(rest, after)
        }
        [b'\\', byte, rest @ ..] | [byte, rest @ ..] => {
            matches!(text, [first, after @ ..] if first == byte && fits(rest, after))
        }
    }
}

/// Whether a byte is one of a set, and what follows the set's `]`.
fn one_of(set: &[u8], byte: u8) -> (bool, &[u8]) {
    let (is_other, mut set) = match set {
        [b'!' | b'^', set @ ..] => (true, set),
        _ => (false, set),
    };
    let (mut is_in, mut is_first) = (false, true);
    loop {
        match set {
            [b']', rest @ ..] if !is_first => return (is_in != is_other, rest),
            [low, b'-', high, rest @ ..] if *high != b']' => {
                is_in |= (*low..=*high).contains(&byte);
                set = rest;
            }
            [one, rest @ ..] => {
                is_in |= *one == byte;
                set = rest;
            }
            [] => return (false, set),
        }
        is_first = false;
    }
}

#[cfg(test)]
mod tests {
    use super::Globs;
    use std::path::Path;

    fn fit(patterns: &[&str], path: &str) -> bool {
        Globs::of(patterns.iter().map(|pattern| pattern.as_bytes())).fit(Path::new(path))
    }

    #[test]
    fn a_pattern_is_of_the_name_or_of_the_path() {
        for (pattern, path, fits) in [
            ("*.lists", "a/b.lists", true),
            ("*.lists", "a/b.list", false),
            ("a/*", "a/b", true),
            ("a/*", "a/b/c", false),
            ("a/**", "a/b/c", true),
            ("**/c", "c", true),
            ("**/c", "a/b/c", true),
            ("/*.x", "a/b.x", false),
            ("?", "ab", false),
            ("[a-c][!x]", "by", true),
            ("[a-c][!x]", "bx", false),
            ("[]]", "]", true),
            ("[", "[", true),
            ("\\*", "*", true),
            ("\\*", "a", false),
            ("", "a", false),
        ] {
            assert_eq!(fit(&[pattern], path), fits, "{pattern} {path}");
        }
    }

    #[test]
    fn the_last_pattern_that_fits_decides() {
        assert!(fit(&[], "a"));
        assert!(fit(&["!*.txt"], "a.lists"));
        assert!(!fit(&["!*.txt"], "a.txt"));
        assert!(!fit(&["*.lists", "!old*"], "old.lists"));
        assert!(fit(&["!old*", "*.lists"], "old.lists"));
        assert!(!fit(&["*.lists", "!old*"], "new.txt"));
    }
}
