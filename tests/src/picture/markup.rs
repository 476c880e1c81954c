//! Elements of SVG and HTML, written with their text escaped, one element a line where it holds
//! others, so that a stored picture's changes can be read.

use std::fmt::{Display, Write};

pub struct Element {
    name: &'static str,
    attributes: Vec<(&'static str, String)>,
    children: Vec<Child>,
}

enum Child {
    Element(Element),
    Text(String),
    Raw(&'static str),
}

pub fn element(name: &'static str) -> Element {
    Element {
        name,
        attributes: Vec::new(),
        children: Vec::new(),
    }
}

impl Element {
    pub fn with(mut self, attribute: &'static str, value: impl Display) -> Element {
        self.attributes.push((attribute, value.to_string()));
        self
    }

    pub fn class(self, value: impl Display) -> Element {
        self.with("class", value)
    }

    pub fn text(mut self, text: impl Display) -> Element {
        self.children.push(Child::Text(text.to_string()));
        self
    }

    /// A style or a script, which HTML takes as it stands; without < and & XML does so too.
    pub fn raw(mut self, text: &'static str) -> Element {
        assert!(!text.contains(['<', '&']), "{} as it stands", self.name);
        self.children.push(Child::Raw(text));
        self
    }

    pub fn holding(mut self, child: Element) -> Element {
        self.push(child);
        self
    }

    pub fn holding_all(mut self, children: impl IntoIterator<Item = Element>) -> Element {
        children.into_iter().for_each(|child| self.push(child));
        self
    }

    pub fn push(&mut self, child: Element) {
        self.children.push(Child::Element(child));
    }

    /// The element as text, with a line end.
    pub fn written(&self) -> String {
        let mut out = String::new();
        self.write(&mut out, 0);
        out
    }

    fn write(&self, out: &mut String, depth: usize) {
        let indent = "  ".repeat(depth);
        let _ = write!(out, "{indent}<{}", self.name);
        for (name, value) in &self.attributes {
            let _ = write!(out, " {name}=\"{}\"", escaped(value));
        }
        if self.children.is_empty() {
            out.push_str("/>\n");
            return;
        }
        out.push('>');
        if self.is_inline() {
            self.write_inline(out);
        } else {
            out.push('\n');
            self.write_block(out, depth + 1);
            out.push_str(&indent);
        }
        let _ = writeln!(out, "</{}>", self.name);
    }

    /// Whether blanks between its parts would be seen, since text stands in it.
    fn is_inline(&self) -> bool {
        let is_text = |child: &Child| !matches!(child, Child::Element(_));
        self.name == "text" || self.children.iter().any(is_text)
    }

    fn write_inline(&self, out: &mut String) {
        for child in &self.children {
            match child {
                Child::Text(text) => out.push_str(&escaped(text)),
                Child::Raw(text) => out.extend(["\n", text]),
                Child::Element(element) => out.push_str(element.written().trim_end()),
            }
        }
    }

    fn write_block(&self, out: &mut String, depth: usize) {
        for child in &self.children {
            if let Child::Element(element) = child {
                element.write(out, depth);
            }
        }
    }
}

/// Text as it may stand in an element or an attribute. A character that XML has no way to write
/// becomes U+FFFD.
fn escaped(text: &str) -> String {
    let mut out = String::with_capacity(text.len());
    for character in text.chars() {
        match character {
            '&' => out.push_str("&amp;"),
            '<' => out.push_str("&lt;"),
            '>' => out.push_str("&gt;"),
            '"' => out.push_str("&quot;"),
            '\n' | '\t' => out.push(character),
            '\0'..='\u{1F}' | '\u{FFFE}' | '\u{FFFF}' => out.push('\u{FFFD}'),
            _ => out.push(character),
        }
    }
    out
}
