//! The files that the tests read, and pictures looked at as text.

use std::path::{Path, PathBuf};
use study::svg::{LINE, Rect, text_width};

/// A file under tests/.
pub fn path(name: &str) -> PathBuf {
    Path::new(env!("CARGO_MANIFEST_DIR")).join("../../tests").join(name)
}

pub fn bytes(name: &str) -> Vec<u8> {
    let path = path(name);
    std::fs::read(&path).unwrap_or_else(|error| panic!("{}: {error}", path.display()))
}

/// Every case of tests/cases, by name.
pub fn cases() -> Vec<String> {
    let entries = std::fs::read_dir(path("cases")).expect("tests/cases is there");
    let paths = entries.map(|entry| entry.expect("it can be read").path());
    let is_graph = |path: &PathBuf| path.extension().is_some_and(|ending| ending == "graph");
    let name = |path: PathBuf| path.file_stem().expect("a case has a name").to_string_lossy().into_owned();
    let mut names: Vec<String> = paths.filter(is_graph).map(name).collect();
    names.sort();
    assert!(names.len() > 100, "the cases are there");
    names
}

/// One tag of a picture, with the text that follows it.
pub struct Tag<'a> {
    pub name: &'a str,
    pub attributes: &'a str,
    pub text: &'a str,
}

impl Tag<'_> {
    pub fn attribute(&self, name: &str) -> Option<&str> {
        let from = self.attributes.find(&format!(" {name}=\""))? + name.len() + 3;
        self.attributes[from..].split('"').next()
    }

    pub fn number(&self, name: &str) -> f64 {
        self.attribute(name)
            .and_then(|value| value.parse().ok())
            .unwrap_or_else(|| panic!("{name}: {}", self.attributes))
    }

    pub fn words(&self) -> String {
        self.text.replace("&lt;", "<").replace("&gt;", ">").replace("&amp;", "&")
    }
}

/// The tags of a picture, which close one another as they should, with no text between them but that of texts.
pub fn tags(svg: &str) -> Vec<Tag<'_>> {
    let mut open = Vec::new();
    let mut tags = Vec::new();
    assert!(svg.starts_with("<svg "));
    for part in svg.split('<').skip(1) {
        let (tag, text) = part.split_once('>').expect("a tag ends");
        let name = tag.trim_start_matches('/').split([' ', '/']).next().unwrap_or_default();
        assert_eq!(tag.matches('"').count() % 2, 0, "{tag}");
        if tag.starts_with('/') {
            assert_eq!(open.pop(), Some(name), "{tag}");
            assert_eq!(text.trim(), "", "text after {tag}");
            continue;
        }
        if !tag.ends_with('/') {
            open.push(name);
        }
        assert!(name == "text" || text.trim().is_empty(), "text outside: {text}");
        assert!(!text.replace("&amp;", "").replace("&lt;", "").replace("&gt;", "").contains('&'), "{text}");
        tags.push(Tag { name, attributes: tag, text });
    }
    assert_eq!(open, [""; 0], "all is closed");
    tags
}

/// The texts of a picture with the boxes that they take, after a look that none is cut and none lies over another.
pub fn texts(svg: &str) -> Vec<(String, Rect)> {
    let tags = tags(svg);
    let sheet = Rect::new([0.0, 0.0], ["width", "height"].map(|side| tags[0].number(side)));
    let text = |tag: &Tag<'_>| {
        let (words, size) = (tag.words(), tag.number("font-size"));
        let width = text_width(&words, size);
        let left = tag.number("x") - if tag.attribute("text-anchor").is_some() { width / 2.0 } else { 0.0 };
        (words, Rect::new([left, tag.number("y") - 0.95 * size], [width, LINE * size]))
    };
    let texts: Vec<(String, Rect)> = tags.iter().filter(|tag| tag.name == "text").map(text).collect();
    for (at, (words, rect)) in texts.iter().enumerate() {
        assert!(sheet.holds(rect), "{words} is cut");
        for (other, taken) in &texts[..at] {
            // lines of one label touch, and numbers are rounded
            assert!(!rect.grown(-0.05).overlaps(taken), "{words} lies over {other}");
        }
    }
    texts
}
