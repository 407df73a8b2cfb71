//! A strict reader of XML: of what the command writes, all that is not well formed is a fault, and so is all that it has no need of.

pub struct Element {
    pub name: String,
    pub attributes: Vec<(String, String)>,
    pub children: Vec<Node>,
}

pub enum Node {
    Element(Element),
    Text(String),
}

impl Element {
    pub fn attribute(&self, name: &str) -> &str {
        self.attributes.iter().find(|(other, _)| other == name).map_or("", |(_, value)| value)
    }

    /// A whole number; anything else is none.
    pub fn number(&self, name: &str) -> Option<u64> {
        self.attribute(name).parse().ok()
    }

    pub fn has_class(&self, class: &str) -> bool {
        self.attribute("class").split(' ').any(|other| other == class)
    }

    pub fn elements(&self) -> impl Iterator<Item = &Element> {
        self.children.iter().filter_map(|child| match child {
            Node::Element(element) => Some(element),
            Node::Text(_) => None,
        })
    }

    /// This element and all below it, in the order in which they are written.
    pub fn all(&self) -> Vec<&Element> {
        let mut found = vec![self];
        found.extend(self.elements().flat_map(|child| child.all()));
        found
    }

    pub fn of_class(&self, class: &str) -> Vec<&Element> {
        self.all().into_iter().filter(|element| element.has_class(class)).collect()
    }

    pub fn named(&self, name: &str) -> Vec<&Element> {
        self.all().into_iter().filter(|element| element.name == name).collect()
    }

    /// All text below, put together.
    pub fn text(&self) -> String {
        let text = |child: &Node| match child {
            Node::Element(element) => element.text(),
            Node::Text(text) => text.clone(),
        };
        self.children.iter().map(text).collect()
    }
}

struct Reader<'a> {
    rest: &'a str,
}

type Read<T> = Result<T, String>;

const ENTITIES: &[(&str, char)] = &[("lt", '<'), ("gt", '>'), ("amp", '&'), ("quot", '"'), ("apos", '\'')];

fn entity(name: &str) -> Option<char> {
    if let Some(digits) = name.strip_prefix('#') {
        return digits.parse().ok().and_then(char::from_u32).filter(|&letter| is_letter(letter));
    }
    ENTITIES.iter().find(|(other, _)| *other == name).map(|&(_, letter)| letter)
}

/// What XML lets stand in a text.
fn is_letter(letter: char) -> bool {
    matches!(letter, '\t' | '\n' | '\r' | ' '..='\u{D7FF}' | '\u{E000}'..='\u{FFFD}' | '\u{10000}'..)
}

fn is_name_letter(letter: char) -> bool {
    letter.is_ascii_alphanumeric() || "_-.:".contains(letter)
}

fn decoded(raw: &str) -> Read<String> {
    let mut parts = raw.split('&');
    let mut text = parts.next().unwrap().to_string();
    for part in parts {
        let (name, rest) = part.split_once(';').ok_or(format!("an & begins nothing: {part}"))?;
        text.push(entity(name).ok_or(format!("no such entity: {name}"))?);
        text += rest;
    }
    match raw.contains("]]>") || !text.chars().all(is_letter) {
        true => Err(format!("a text that may not stand there: {raw:?}")),
        false => Ok(text),
    }
}

impl<'a> Reader<'a> {
    fn fault<T>(&self, what: &str) -> Read<T> {
        Err(format!("{what} at {:?}", self.rest.chars().take(60).collect::<String>()))
    }

    fn takes(&mut self, word: &str) -> bool {
        let rest = self.rest.strip_prefix(word);
        self.rest = rest.unwrap_or(self.rest);
        rest.is_some()
    }

    fn needs(&mut self, word: &str) -> Read<()> {
        if self.takes(word) {
            Ok(())
        } else {
            self.fault(&format!("no {word:?}"))
        }
    }

    fn up_to(&mut self, end: impl Fn(char) -> bool) -> &'a str {
        let length = self.rest.find(end).unwrap_or(self.rest.len());
        let (taken, rest) = self.rest.split_at(length);
        self.rest = rest;
        taken
    }

    /// Whether there were any.
    fn blanks(&mut self) -> bool {
        !self.up_to(|letter| !letter.is_ascii_whitespace()).is_empty()
    }

    fn name(&mut self) -> Read<String> {
        let name = self.up_to(|letter| !is_name_letter(letter));
        match name.chars().next().map_or(false, |first| first.is_ascii_alphabetic()) {
            true => Ok(name.to_string()),
            false => self.fault("no name"),
        }
    }

    fn attributes(&mut self) -> Read<Vec<(String, String)>> {
        let mut found: Vec<(String, String)> = Vec::new();
        while self.blanks() && !self.rest.starts_with(['/', '>']) {
            let name = self.name()?;
            self.needs("=\"")?;
            let value = decoded(self.up_to(|letter| letter == '"' || letter == '<'))?;
            self.needs("\"")?;
            if found.iter().any(|(other, _)| *other == name) {
                return self.fault(&format!("{name} twice"));
            }
            found.push((name, value));
        }
        Ok(found)
    }

    fn children(&mut self) -> Read<Vec<Node>> {
        let mut found = Vec::new();
        while !self.rest.starts_with("</") {
            if self.rest.starts_with('<') {
                found.push(Node::Element(self.element()?));
            } else if self.rest.is_empty() {
                return self.fault("no end");
            } else {
                found.push(Node::Text(decoded(self.up_to(|letter| letter == '<'))?));
            }
        }
        Ok(found)
    }

    fn element(&mut self) -> Read<Element> {
        self.needs("<")?;
        let (name, attributes) = (self.name()?, self.attributes()?);
        if self.takes("/>") {
            return Ok(Element { name, attributes, children: Vec::new() });
        }
        self.needs(">")?;
        let children = self.children()?;
        self.needs(&format!("</{name}>"))?;
        Ok(Element { name, attributes, children })
    }
}

/// The element that a document is, behind its one line of prologue.
pub fn read(document: &[u8], prologue: &str) -> Read<Element> {
    let text = std::str::from_utf8(document).map_err(|why| why.to_string())?;
    let mut reader = Reader { rest: text };
    reader.needs(prologue)?;
    reader.needs("\n")?;
    let root = reader.element()?;
    reader.needs("\n")?;
    match reader.rest.is_empty() {
        true => Ok(root),
        false => reader.fault("something behind the end"),
    }
}

/// Of the reader itself: what it must not let through.
pub const MALFORMED: &[&str] = &[
    "<a>",
    "<a></b>",
    "<a b=\"1\" b=\"2\"/>",
    "<a b=1/>",
    "<a>&</a>",
    "<a>&nbsp;</a>",
    "<a>\u{1}</a>",
    "<a>]]></a>",
    "<a b=\"<\"/>",
    "<a/><b/>",
    "<a>&#1;</a>",
    "<a>&#xFFFF;</a>",
    "<1/>",
    "<a>\u{FFFE}</a>",
    "<a b=\"1\"c=\"2\"/>",
    "text",
    "<a><!-- --></a>",
    "<a>&lt</a>",
    "",
];
