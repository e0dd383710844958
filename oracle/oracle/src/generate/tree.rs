//! Well-formed trees, and texts that are read as them.

use super::rng::Rng;

pub struct Node {
    pub prefix: Vec<String>,
    pub value: Value,
    pub suffix: Option<String>,
}

pub enum Value {
    /// An identifier, a number or a string.
    Atom(String),
    Container(Bracket, Inside),
}

pub enum Bracket {
    List,
    Map,
    /// With its quoted name.
    Variant(String),
}

/// What stands in a container; in a map keys and values by turns.
pub struct Inside {
    pub values: Vec<Node>,
    pub closing: Vec<String>,
}

/// A whole text: a map's inside or one or more values.
pub struct Document {
    pub is_map: bool,
    pub inside: Inside,
}

impl Node {
    pub fn bare(value: Value) -> Self {
        Self {
            prefix: Vec::new(),
            value,
            suffix: None,
        }
    }

    pub fn atom(text: impl Into<String>) -> Self {
        Self::bare(Value::Atom(text.into()))
    }
}

/// A random tree as a text with random spacing.
pub fn text(rng: &mut Rng) -> String {
    let document = document(rng);
    render(&document, rng)
}

pub fn document(rng: &mut Rng) -> Document {
    let budget = *rng.pick_from(&[3, 8, 20, 60]);
    let comment_percent = *rng.pick_from(&[0, 0, 5, 30]);
    let mut builder = Builder {
        rng,
        budget,
        comment_percent,
    };
    builder.document()
}

/// The text of a tree; the spacing is another each time.
pub fn render(document: &Document, rng: &mut Rng) -> String {
    let spacing = *rng.pick_from(&[Spacing::Tight, Spacing::Plain, Spacing::Wild]);
    let mut pen = Pen {
        rng,
        spacing,
        out: String::new(),
        after_value: false,
    };
    pen.document(document);
    pen.out
}

pub const IDENTIFIERS: [&str; 12] = [
    "a", "b", "key", "true", "false", "null", "_", "Round_3", "players", "x1", "nul", "True",
];

pub const NUMBERS: [&str; 18] = [
    "0", "1", "2", "42", "-1", "+inf", "-inf", "+nan", "1.5e-3", "0x1F", "1_000", ".5", "-", "+",
    ".", "1..2", "9a_b", "+-.",
];

pub const COMMENTS: [&str; 12] = [
    "//",
    "// c",
    "///",
    "// live",
    "//é中😀",
    "// \"[{('",
    "//\t\u{c}x\r",
    "// a // b",
    "//]",
    "//\u{2028}\u{85}",
    "//\r",
    "// '''\"\"\"\\",
];

const EASY: [&str; 12] = [
    "a", "Half", "x", "é", "中", "😀", " ", "\t", "1", "//", "[", "}",
];

const HARD: [&str; 13] = [
    "\r", "\n", "\r\n", "\u{c}", ":", ",", "(", ")", "#", "\u{2028}", "\u{a0}", "\u{feff}", "\0",
];

/// A string of one of the four kinds, quotes and all, that is one token.
pub fn quoted(rng: &mut Rng) -> String {
    let (mark, own): (&str, &[&str]) = match rng.below(5) {
        0 | 1 => ("\"", &["'", "\\n", "\\\"", "\\\\", "\\u{41}", "\\é", "\\q"]),
        2 => ("'", &["\"", "\\", "\"\"\""]),
        3 => ("\"\"\"", &["'", "\"x", "\"\"x", "\\\n", "\\n", "\\"]),
        _ => ("'''", &["\"", "'x", "''x", "\\", "\"\"\""]),
    };
    let hard = rng.chance(25);
    let mut text = mark.to_owned();
    for _ in 0..rng.below(6) {
        text += match rng.below(4) {
            0 => rng.pick(own),
            1 if hard => rng.pick(&HARD),
            _ => rng.pick(&EASY),
        };
    }
    text + mark
}

/// A string of exactly so many bytes, quotes counted; at least two.
pub fn quoted_of_length(length: usize, rng: &mut Rng) -> String {
    let mark = match rng.below(4) {
        0 if length >= 6 => "'''",
        1 if length >= 6 => "\"\"\"",
        2 => "'",
        _ => "\"",
    };
    let inside = length.saturating_sub(2 * mark.len());
    let mut text = mark.to_owned();
    if inside >= 2 && rng.chance(30) {
        text += "é";
    }
    while text.len() < mark.len() + inside {
        text.push('x');
    }
    text + mark
}

struct Builder<'r> {
    rng: &'r mut Rng,
    /// How many values may still be made.
    budget: usize,
    comment_percent: usize,
}

impl Builder<'_> {
    fn document(&mut self) -> Document {
        let is_map = self.rng.chance(50);
        let values = match self.rng.below(10) {
            0 => Vec::new(),
            _ if is_map => self.pairs(0),
            1..6 => vec![self.node(0)],
            _ => self.values(0),
        };
        let closing = self.comments();
        Document {
            is_map,
            inside: Inside { values, closing },
        }
    }

    fn node(&mut self, depth: usize) -> Node {
        self.budget = self.budget.saturating_sub(1);
        let prefix = self.comments();
        let value = if depth < 6 && self.budget > 0 && self.rng.chance(45) {
            self.container(depth + 1)
        } else {
            Value::Atom(self.atom())
        };
        let suffix = self.comment();
        Node {
            prefix,
            value,
            suffix,
        }
    }

    fn atom(&mut self) -> String {
        match self.rng.below(10) {
            0..3 => self.rng.pick(&IDENTIFIERS).to_owned(),
            3..6 => self.rng.pick(&NUMBERS).to_owned(),
            6 => quoted_of_length(self.rng.between(2, 64), self.rng),
            _ => quoted(self.rng),
        }
    }

    fn container(&mut self, depth: usize) -> Value {
        let bracket = match self.rng.below(3) {
            0 => Bracket::List,
            1 => Bracket::Map,
            _ => Bracket::Variant(self.variant_name()),
        };
        let values = match bracket {
            Bracket::Map => self.pairs(depth),
            Bracket::List | Bracket::Variant(_) => self.values(depth),
        };
        let closing = self.comments();
        Value::Container(bracket, Inside { values, closing })
    }

    fn variant_name(&mut self) -> String {
        match self.rng.below(4) {
            0 => quoted_of_length(self.rng.between(2, 70), self.rng),
            1 => "\"\"".to_owned(),
            _ => quoted(self.rng),
        }
    }

    fn pairs(&mut self, depth: usize) -> Vec<Node> {
        let count = self.rng.below(5);
        let mut values = Vec::new();
        for _ in 0..count {
            // Mostly a plain key, sometimes any value.
            values.push(if self.rng.chance(70) {
                Node {
                    prefix: self.comments(),
                    value: Value::Atom(self.rng.pick(&IDENTIFIERS).to_owned()),
                    suffix: self.comment(),
                }
            } else {
                self.node(depth)
            });
            values.push(self.node(depth));
            if self.budget == 0 {
                break;
            }
        }
        values
    }

    fn values(&mut self, depth: usize) -> Vec<Node> {
        match self.rng.below(10) {
            0 => Vec::new(),
            // One container alone, which shares its brackets with a variant.
            1 | 2 => vec![Node {
                prefix: self.comments(),
                value: self.container(depth + 1),
                suffix: self.comment(),
            }],
            // Around the number of values on one line.
            3 => (0..self.rng.between(3, 6))
                .map(|_| Node::atom(self.rng.pick(&NUMBERS)))
                .collect(),
            4 => (0..self.rng.between(3, 6))
                .map(|_| Node::atom(self.rng.pick(&IDENTIFIERS)))
                .collect(),
            5 | 6 => self.values_of_width(),
            _ => (0..self.rng.below(6))
                .map_while(|_| (self.budget > 0).then(|| self.node(depth)))
                .collect(),
        }
    }

    /// Simple values whose widths add up to about the width of one line.
    fn values_of_width(&mut self) -> Vec<Node> {
        let mut rest = self.rng.between(57, 62);
        let mut values = Vec::new();
        for _ in 0..self.rng.below(5) {
            let (value, width) = self.simple_value();
            if rest < width + 4 {
                break;
            }
            rest -= width;
            values.push(Node::bare(value));
        }
        let filler = Node::atom(quoted_of_length(rest - 2, self.rng));
        let place = self.rng.below(values.len() + 1);
        values.insert(place, filler);
        values
    }

    /// A value without comments or content, and what it counts for in the width of a line.
    fn simple_value(&mut self) -> (Value, usize) {
        let empty = || Inside {
            values: Vec::new(),
            closing: Vec::new(),
        };
        match self.rng.below(6) {
            0 => (Value::Atom(self.rng.pick(&IDENTIFIERS).to_owned()), 7),
            1 => (Value::Atom(self.rng.pick(&NUMBERS).to_owned()), 7),
            2 => (Value::Container(Bracket::List, empty()), 7),
            3 => (Value::Container(Bracket::Map, empty()), 7),
            4 => {
                let name = Bracket::Variant(self.variant_name());
                (Value::Container(name, empty()), 7)
            }
            _ => {
                let text = quoted_of_length(self.rng.between(2, 20), self.rng);
                let width = text.len() + 2;
                (Value::Atom(text), width)
            }
        }
    }

    fn comment(&mut self) -> Option<String> {
        self.rng
            .chance(self.comment_percent)
            .then(|| self.rng.pick(&COMMENTS).to_owned())
    }

    fn comments(&mut self) -> Vec<String> {
        let mut comments = Vec::new();
        while let Some(comment) = self.comment() {
            comments.push(comment);
        }
        comments
    }
}

#[derive(Clone, Copy)]
enum Spacing {
    /// Only what keeps tokens apart.
    Tight,
    Plain,
    Wild,
}

/// Writes a tree so that it is read as that tree.
struct Pen<'r> {
    rng: &'r mut Rng,
    spacing: Spacing,
    out: String,
    /// A comment written here would be the suffix of the value before.
    after_value: bool,
}

impl Pen<'_> {
    fn document(&mut self, document: &Document) {
        self.gap();
        self.inside(document.is_map, &document.inside);
        self.gap();
        if self.out.ends_with('\n') && self.rng.chance(30) {
            self.out.pop();
        }
    }

    fn inside(&mut self, is_map: bool, inside: &Inside) {
        for (i, node) in inside.values.iter().enumerate() {
            if is_map && i % 2 == 0 {
                self.key(node);
            } else {
                self.item(node);
            }
        }
        self.comments(&inside.closing);
    }

    fn key(&mut self, node: &Node) {
        self.value(node);
        if let Some(comment) = &node.suffix {
            self.suffix(comment);
        }
        self.gap();
        self.token(":");
    }

    /// A value with its suffix, which stands after the comma if there is one.
    fn item(&mut self, node: &Node) {
        self.value(node);
        if self.rng.chance(40) {
            // A suffix before the comma does not count.
            if node.suffix.is_some() && self.rng.chance(10) {
                self.suffix("// lost");
            }
            self.gap();
            self.token(",");
            self.after_value = true;
        }
        if let Some(comment) = &node.suffix {
            self.suffix(comment);
        }
        self.gap();
    }

    fn value(&mut self, node: &Node) {
        self.comments(&node.prefix);
        self.gap();
        match &node.value {
            Value::Atom(text) => self.token(text),
            Value::Container(bracket, inside) => self.container(bracket, inside),
        }
        self.after_value = true;
    }

    fn container(&mut self, bracket: &Bracket, inside: &Inside) {
        let (open, close) = match bracket {
            Bracket::List => ("[", "]"),
            Bracket::Map => ("{", "}"),
            Bracket::Variant(name) => {
                self.token(name);
                self.gap();
                ("(", ")")
            }
        };
        self.token(open);
        self.inside(matches!(bracket, Bracket::Map), inside);
        self.gap();
        self.token(close);
    }

    /// Comments that belong to no value before them.
    fn comments(&mut self, comments: &[String]) {
        for comment in comments {
            if self.after_value {
                self.blanks();
                self.out.push('\n');
            }
            self.gap();
            self.comment(comment);
        }
    }

    fn suffix(&mut self, comment: &str) {
        self.blanks();
        self.comment(comment);
    }

    fn comment(&mut self, comment: &str) {
        self.out += comment;
        self.out.push('\n');
        self.after_value = false;
    }

    fn token(&mut self, text: &str) {
        let last = self.out.chars().next_back();
        let first = text.chars().next();
        if let (Some(last), Some(first)) = (last, first)
            && would_join(last, first)
        {
            self.out.push(' ');
        }
        self.out += text;
        self.after_value = false;
    }

    /// Anything that is skipped.
    fn gap(&mut self) {
        let pieces: &[&str] = match self.spacing {
            Spacing::Tight => &["", "", "", "", " "],
            Spacing::Plain => &["", " ", "\n", "  ", "\n\t"],
            Spacing::Wild => &[
                "", " ", "\t", "\n", "\u{c}", "\r", "\r\n", " \n \n", "\n\r\n",
            ],
        };
        let gap = self.rng.pick(pieces);
        if gap.contains('\n') {
            self.after_value = false;
        }
        self.out += gap;
    }

    /// Anything that is skipped within a line.
    fn blanks(&mut self) {
        let pieces: &[&str] = match self.spacing {
            Spacing::Tight => &[""],
            Spacing::Plain => &["", " "],
            Spacing::Wild => &["", " ", "\t", "\u{c}", "\r", "  "],
        };
        self.out += self.rng.pick(pieces);
    }
}

/// Whether two tokens side by side may be read as other tokens.
fn would_join(last: char, first: char) -> bool {
    let is_word = |c: char| c.is_ascii_alphanumeric() || matches!(c, '_' | '.' | '+' | '-');
    (is_word(last) && is_word(first)) || (last == first && matches!(last, '"' | '\''))
}
