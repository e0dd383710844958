//! Texts of one shape and an exact length.

pub struct Shape {
    pub name: &'static str,
    front: &'static str,
    unit: fn(usize) -> String,
    back: &'static str,
}

/// What event files, and parts of them, look like.
pub const USUAL: [Shape; 9] = [
    shape("event", event),
    // One map for the whole file, without and with its braces: what most files are.
    shape("map", pair),
    shape("braced", pair).between("{\n", "}\n"),
    shape("strings", string),
    shape("comments", comment),
    shape("numbers", number),
    shape("deep", deep),
    shape("accents", accent),
    shape("blanks", spaced),
];

/// Texts that make a lexer look far ahead, most of them refused.
pub const HARD: [Shape; 8] = [
    shape("only blanks", |_| " ".to_owned()),
    shape("ascii letters", |_| "a".to_owned()),
    shape("quotes", |_| "\"".to_owned()),
    shape("apostrophes", |_| "'".to_owned()),
    shape("backslashes in an unclosed string", |_| "\\\\".to_owned()).between("\"", ""),
    shape("unclosed \"\"\"", |_| "a ".to_owned()).between("\"\"\"", ""),
    shape("\"\"\"a again and again", |_| "\"\"\"a".to_owned()),
    shape("unclosed '''", |_| "a ".to_owned()).between("'''", ""),
];

/// Maps in maps, with a value for each of many paths.
pub const SHEET: Shape = shape("sheet", sheet);

const fn shape(name: &'static str, unit: fn(usize) -> String) -> Shape {
    Shape {
        name,
        front: "",
        unit,
        back: "",
    }
}

impl Shape {
    const fn between(self, front: &'static str, back: &'static str) -> Self {
        Self {
            front,
            back,
            ..self
        }
    }

    pub fn named(name: &str) -> Option<&'static Self> {
        let mut all = USUAL.iter().chain(&HARD).chain([&SHEET]);
        all.find(|shape| shape.name == name)
    }

    /// Units as long as they fit, what stands behind them, then blanks.
    pub fn text(&self, len: usize) -> String {
        let mut text = self.front.to_owned();
        for turn in 0.. {
            let unit = (self.unit)(turn);
            if text.len() + unit.len() + self.back.len() > len {
                break;
            }
            text += &unit;
        }
        text += self.back;
        text += &" ".repeat(len - text.len());
        text
    }
}

fn event(turn: usize) -> String {
    let round = turn / 4;
    format!(
        "{{\n\tround: {round} // live\n\twhite: \"Ada {turn}\"\n\tblack: \"Bo {turn}\"\n\tresult: \"Half\"(1, 2)\n\
         \ttags: [a, b, c]\n}}\n"
    )
}

fn pair(turn: usize) -> String {
    format!(
        "// Round {turn}\nround_{turn}: {{\n\twhite: \"Ada Lovelace\"\n\tblack: \"Bo Diddley\" // late\n\
         \tresult: \"Half\"(7)\n\tclock: [5400, 5399, 30]\n}}\n"
    )
}

fn string(turn: usize) -> String {
    format!(
        "\"a string of some length, number {turn}, with a tab \\t and \\u{{41}}\" 'and a literal one'\n"
    )
}

fn comment(turn: usize) -> String {
    format!("// what is said about the value\nkey_{turn}: {turn} // and behind it\n")
}

fn number(turn: usize) -> String {
    format!("{turn} -{turn}.25 0xFF 1e{turn}\n")
}

fn deep(turn: usize) -> String {
    format!("{}{turn}{}\n", "[".repeat(60), "]".repeat(60))
}

fn accent(turn: usize) -> String {
    format!("spieler_{turn}: \"Jürgen Großmüller, Łódź, 北京 {turn}\" // größer als zuvor\n")
}

fn spaced(turn: usize) -> String {
    format!(
        "player_{turn}: {{\n        name:    \"Ada\",\n        score:   {turn},\n        byes:    []\n    }}\n\n"
    )
}

fn sheet(turn: usize) -> String {
    let board = |number: usize| {
        format!(
            "\tboard_{number}: {{white: \"Ada {turn}\", black: \"Bo {turn}\", result: \"Half\"(7)}}\n"
        )
    };
    format!("round_{turn}: {{\n{}{}}}\n", board(0), board(1))
}

/// So many paths of three keys, spread over a sheet; all reach a value, and different ones while there
/// are as many.
pub fn paths(sheet: &str, count: usize) -> Vec<String> {
    let rounds = sheet.matches("round_").count();
    let path = |number: usize| {
        let round = number * rounds / count;
        let board = number % 2;
        let field = ["white", "black", "result"][number % 3];
        format!("[round_{round} board_{board} {field}]\n")
    };
    (0..count).map(path).collect()
}

/// One quoted string of an exact length, with an escape every twenty bytes.
pub fn quoted(len: usize, escapes: bool) -> String {
    let unit = if escapes {
        "twenty bytes with a\\t"
    } else {
        "twenty bytes without"
    };
    let mut text = "\"".to_owned();
    while text.len() + unit.len() < len {
        text += unit;
    }
    text += &"x".repeat(len - 1 - text.len());
    text + "\""
}
