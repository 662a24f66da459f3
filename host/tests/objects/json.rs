//! Reads objects, and says which keys they have with what kind of value.
use std::collections::BTreeSet;

/// A key, dotted where it is in a list or an object, and the kind of its value.
pub type Key = (String, &'static str);

/// The keys of one object, which must be all of the text.
pub fn keys(text: &str) -> BTreeSet<Key> {
    let mut reader = Reader {
        rest: text.trim_end(),
        keys: BTreeSet::new(),
    };
    assert_eq!(reader.value(""), "object", "{text}");
    assert_eq!(reader.rest, "", "{text}");
    reader.keys
}

struct Reader<'a> {
    rest: &'a str,
    keys: BTreeSet<Key>,
}

impl Reader<'_> {
    fn take(&mut self, mark: &str) -> bool {
        let rest = self.rest.strip_prefix(mark);
        self.rest = rest.unwrap_or(self.rest);
        rest.is_some()
    }

    /// A value under a key; its kind.
    fn value(&mut self, key: &str) -> &'static str {
        for (word, kind) in [("null", "null"), ("true", "truth"), ("false", "truth")] {
            if self.take(word) {
                return kind;
            }
        }
        if self.rest.starts_with('"') {
            self.text();
            return "text";
        }
        if self.take("{") {
            self.members("}", |reader| {
                let name = reader.text();
                assert!(reader.take(":"), "{}", reader.rest);
                let dot = if key.is_empty() { "" } else { "." };
                let key = format!("{key}{dot}{name}");
                let kind = reader.value(&key);
                reader.keys.insert((key, kind));
            });
            return "object";
        }
        if self.take("[") {
            self.members("]", |reader| {
                reader.value(key);
            });
            return "list";
        }
        let digits = |c: char| c.is_ascii_digit() || "-+.eE".contains(c);
        let end = self.rest.find(|c| !digits(c)).unwrap_or(self.rest.len());
        let number: f64 = self.rest[..end].parse().expect(self.rest);
        assert!(number.is_finite());
        self.rest = &self.rest[end..];
        "number"
    }

    fn members(&mut self, end: &str, mut member: impl FnMut(&mut Self)) {
        if self.take(end) {
            return;
        }
        loop {
            member(self);
            if self.take(end) {
                return;
            }
            assert!(self.take(","), "{}", self.rest);
        }
    }

    /// Text without what is escaped in it, which no key has.
    fn text(&mut self) -> String {
        assert!(self.take("\""), "{}", self.rest);
        let mut text = String::new();
        loop {
            let next = self.rest.chars().next().expect("a quote at its end");
            assert!(!next.is_control(), "{}", self.rest);
            self.rest = &self.rest[next.len_utf8()..];
            match next {
                '"' => return text,
                '\\' => self.rest = &self.rest[1..],
                _ => text.push(next),
            }
        }
    }
}
