//! A reader of markup that is strict on purpose: one element with what it holds, attributes in
//! double quotes, XML's five named characters and its numbered ones, and nothing else. No
//! declaration, comment, doctype or CDATA gets through, since no picture needs one.

/// An element as it was read.
#[derive(Debug, Default)]
pub struct Seen {
    pub name: String,
    pub attributes: Vec<(String, String)>,
    /// The text in it and in the elements that it holds.
    pub text: String,
    /// Where the element that holds it stands in the list; none for the first.
    pub parent: Option<usize>,
}

impl Seen {
    pub fn attribute(&self, name: &str) -> Option<&str> {
        let named = |(other, _): &&(String, String)| other == name;
        self.attributes
            .iter()
            .find(named)
            .map(|(_, value)| value.as_str())
    }

    pub fn has_class(&self, class: &str) -> bool {
        let classes = self.attribute("class").unwrap_or("");
        classes.split_whitespace().any(|other| other == class)
    }
}

/// The elements in the order of their start tags, or what is wrong.
pub fn elements(text: &str) -> Result<Vec<Seen>, String> {
    let mut reader = Reader {
        rest: text,
        open: Vec::new(),
        seen: Vec::new(),
    };
    while !reader.rest.is_empty() {
        reader.step()?;
    }
    match (reader.open.last(), reader.seen.is_empty()) {
        (Some(&at), _) => Err(format!("<{}> is not ended", reader.seen[at].name)),
        (None, true) => Err("no element".to_string()),
        (None, false) => Ok(reader.seen),
    }
}

struct Reader<'a> {
    rest: &'a str,
    /// The elements that are not ended yet.
    open: Vec<usize>,
    seen: Vec<Seen>,
}

impl<'a> Reader<'a> {
    fn step(&mut self) -> Result<(), String> {
        if self.rest.starts_with("</") {
            self.end_tag()
        } else if self.rest.starts_with('<') {
            self.start_tag()
        } else {
            self.text()
        }
    }

    fn text(&mut self) -> Result<(), String> {
        let raw = self.until(|character| character == '<');
        if raw.contains("]]>") {
            return Err("]]> in text".to_string());
        }
        let text = decoded(raw)?;
        if self.open.is_empty() && !text.trim().is_empty() {
            return Err("text outside the element".to_string());
        }
        for &at in &self.open {
            self.seen[at].text.push_str(&text);
        }
        Ok(())
    }

    fn end_tag(&mut self) -> Result<(), String> {
        self.take("</")?;
        let name = self.name()?;
        self.blanks();
        self.take(">")?;
        match self.open.pop() {
            Some(at) if self.seen[at].name == name => Ok(()),
            _ => Err(format!("</{name}> ends no element")),
        }
    }

    fn start_tag(&mut self) -> Result<(), String> {
        if self.open.is_empty() && !self.seen.is_empty() {
            return Err("more than one element".to_string());
        }
        self.take("<")?;
        let mut element = Seen {
            name: self.name()?.to_string(),
            parent: self.open.last().copied(),
            ..Seen::default()
        };
        while self.blanks() && !self.rest.starts_with(['>', '/']) {
            self.attribute(&mut element)?;
        }
        let empty = self.rest.starts_with('/');
        self.take(if empty { "/>" } else { ">" })?;
        if !empty {
            self.open.push(self.seen.len());
        }
        self.seen.push(element);
        Ok(())
    }

    fn attribute(&mut self, element: &mut Seen) -> Result<(), String> {
        let name = self.name()?;
        if element.attribute(name).is_some() {
            return Err(format!("{name} stands twice"));
        }
        self.take("=\"")?;
        let raw = self.until(|character| character == '"' || character == '<');
        self.take("\"")?;
        element.attributes.push((name.to_string(), decoded(raw)?));
        Ok(())
    }

    fn name(&mut self) -> Result<&'a str, String> {
        let within =
            |character: char| character.is_ascii_alphanumeric() || "-_.:".contains(character);
        let name = self.until(|character| !within(character));
        match name.starts_with(|first: char| first.is_ascii_alphabetic() || first == '_') {
            true => Ok(name),
            false => Err(format!("{name:?} is no name")),
        }
    }

    /// Whether there was at least one blank.
    fn blanks(&mut self) -> bool {
        let blanks = self.until(|character| !" \t\r\n".contains(character));
        !blanks.is_empty()
    }

    fn take(&mut self, token: &str) -> Result<(), String> {
        match self.rest.strip_prefix(token) {
            Some(rest) => {
                self.rest = rest;
                Ok(())
            }
            None => Err(format!("no {token} where there must be one")),
        }
    }

    /// What stands before the first character of a kind, or all that is left.
    fn until(&mut self, is_end: impl Fn(char) -> bool) -> &'a str {
        let end = self.rest.find(is_end).unwrap_or(self.rest.len());
        let (before, rest) = self.rest.split_at(end);
        self.rest = rest;
        before
    }
}

/// Text with its named and numbered characters put in.
fn decoded(raw: &str) -> Result<String, String> {
    let mut text = String::new();
    let mut rest = raw;
    while let Some(at) = rest.find('&') {
        text.push_str(&rest[..at]);
        let end = rest[at..].find(';').ok_or("& without its ;")? + at;
        text.push(character(&rest[at + 1..end])?);
        rest = &rest[end + 1..];
    }
    text.push_str(rest);
    match text.chars().find(|&character| !is_allowed(character)) {
        Some(character) => Err(format!("{character:?} may not stand in XML")),
        None => Ok(text),
    }
}

fn character(name: &str) -> Result<char, String> {
    let numbered = |digits: &str, radix: u32| {
        let number = u32::from_str_radix(digits, radix).ok();
        number.and_then(char::from_u32)
    };
    let found = match name {
        "amp" => Some('&'),
        "lt" => Some('<'),
        "gt" => Some('>'),
        "quot" => Some('"'),
        "apos" => Some('\''),
        _ => match (name.strip_prefix("#x"), name.strip_prefix('#')) {
            (Some(digits), _) => numbered(digits, 16),
            (None, Some(digits)) => numbered(digits, 10),
            (None, None) => None,
        },
    };
    found.ok_or_else(|| format!("&{name}; is no character"))
}

fn is_allowed(character: char) -> bool {
    match character {
        '\t' | '\n' | '\r' => true,
        '\u{FFFE}' | '\u{FFFF}' => false,
        _ => character >= ' ',
    }
}

/// Texts that must be turned away.
pub const ILL_FORMED: [&str; 34] = [
    "",
    " \n",
    "text",
    "<a>",
    "<a",
    "<a/",
    "<a/ >",
    "< a/>",
    "<1a/>",
    "<é/>",
    "</a>",
    "<a></b>",
    "<a><b></a></b>",
    "<a/><b/>",
    "<a></a>x",
    "x<a/>",
    "<a b/>",
    "<a b=c/>",
    "<a b='c'/>",
    "<a b=\"c/>",
    "<a b=\"<\"/>",
    "<a b=\"1\"c=\"2\"/>",
    "<a b=\"1\" b=\"2\"/>",
    "<a>&</a>",
    "<a>& b;</a>",
    "<a>&nbsp;</a>",
    "<a>&#0;</a>",
    "<a>&#xD800;</a>",
    "<a>\0</a>",
    "<a>\u{FFFE}</a>",
    "<a>]]></a>",
    "<a><!-- b --></a>",
    "<!DOCTYPE a><a/>",
    "<?xml version=\"1.0\"?><a/>",
];

/// Texts that must get through, each with the text in its first element.
pub const WELL_FORMED: [(&str, &str); 6] = [
    ("<a/>", ""),
    ("\n<a >b</a >\n", "b"),
    ("<a b=\"1\" c=\"&lt;'&quot;\">x &amp; y</a>", "x & y"),
    ("<a><b>1</b> <c:d e-f.g=\"\"/>2</a>", "1 2"),
    ("<a>é&#233;&#x1F600;></a>", "éé\u{1F600}>"),
    ("<a>\u{FFFD}&apos;&gt;]]&gt;</a>", "\u{FFFD}'>]]>"),
];
