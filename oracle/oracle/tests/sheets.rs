//! The sheets of document 01.

use oracle::{Options, Refusal, compare, format, identifier, read, tokens, unquote};

fn refusal(number: u32, start: u32, end: u32, expected: u32, found: u32) -> Refusal {
    Refusal {
        number,
        start,
        end,
        expected,
        found,
    }
}

fn words(text: &str) -> Vec<u32> {
    read(text.as_bytes()).unwrap_or_else(|refusal| panic!("{text:?} is refused: {refusal:?}"))
}

fn refused(text: &str) -> Refusal {
    match read(text.as_bytes()) {
        Ok(words) => panic!("{text:?} is read: {words:?}"),
        Err(refusal) => refusal,
    }
}

fn laid_out(text: &str) -> String {
    let bytes = format(text.as_bytes(), &Options::default())
        .unwrap_or_else(|refusal| panic!("{text:?} is refused: {refusal:?}"));
    String::from_utf8(bytes).expect("the layout is UTF-8")
}

#[test]
fn p1_empty() {
    assert_eq!(words(""), [5, 0, 0, 0, 1]);
    assert_eq!(laid_out(""), "");
}

#[test]
fn p2_to_p6_refused() {
    assert_eq!(refused("]"), refusal(13, 0, 1, 0, 0));
    assert_eq!(refused("a: ]"), refusal(6, 3, 4, 0, 0));
    assert_eq!(refused("a:"), refusal(5, 2, 2, 0, 0));
    assert_eq!(refused("[1"), refusal(12, 1, 2, 3, 0));
    assert_eq!(refused("[1}"), refusal(11, 2, 3, 3, 5));
}

#[test]
fn p7_two_values() {
    #[rustfmt::skip]
    let table = [
        4, 0, 3, 3, 3,
        2, 0, 1, 1, 1,
        2, 2, 3, 3, 1,
    ];
    assert_eq!(words("1 2"), table);
    assert_eq!(laid_out("1 2"), "[1, 2]");
}

#[test]
fn p8_empty_variant() {
    assert_eq!(laid_out("\"A\"()"), "\"A\"");
    assert_eq!(words("\"A\"()"), [6, 0, 3, 5, 1]);
}

#[test]
fn p9_lost_comment() {
    assert_eq!(laid_out("42\n// c"), "42");
    assert_eq!(words("42\n// c"), [2, 0, 2, 2, 1]);
}

#[test]
fn p10_and_p11_strings() {
    assert_eq!(unquote(b"\"\\u{}\""), Ok(vec![0]));
    assert_eq!(unquote(b"'''"), Err(refusal(18, 0, 0, 0, 0)));
}

#[test]
fn p12_stray() {
    assert_eq!(refused("#"), refusal(3, 0, 1, 0, 0));
}

#[test]
fn depth_64() {
    let brackets = |inside: &str| format!("{}{inside}{}", "[".repeat(64), "]".repeat(64));
    assert_eq!(words(&brackets("")).len(), 64 * 5);
    assert_eq!(refused(&brackets("1")), refusal(4, 63, 64, 0, 0));
    assert_eq!(words(&brackets("1")[1..128]).len(), 64 * 5);
}

#[test]
fn width_57_and_58() {
    let list = |length: usize| format!("[\"{}\"]", "x".repeat(length - 2));
    assert_eq!(laid_out(&list(57)), list(57));
    assert_eq!(
        laid_out(&list(58)),
        format!("[\n\t\"{}\"\n]", "x".repeat(56))
    );
}

#[test]
fn five_numbers_take_lines() {
    assert_eq!(laid_out("[1 2 3 4]"), "[1, 2, 3, 4]");
    assert_eq!(laid_out("[1 2 3 4 5]"), "[\n\t1\n\t2\n\t3\n\t4\n\t5\n]");
}

#[test]
fn the_eonfmt_example() {
    assert_eq!(
        laid_out("round:3 // live\nbyes:[\"Half\"(7),\"Half\"(9)]\n"),
        "round: 3 // live\nbyes: [\n\t\"Half\"(7)\n\t\"Half\"(9)\n]\n"
    );
}

#[test]
fn which_of_two_refusals() {
    assert_eq!(refused("1["), refusal(11, 1, 2, 8, 2));
    assert_eq!(refused("[//"), refusal(12, 1, 3, 3, 0));
    assert_eq!(refused("1}"), refusal(13, 1, 2, 0, 0));
}

#[test]
fn root_map_with_suffix() {
    assert_eq!(laid_out("{a:1}//s"), "a: 1\n //s");
}

#[test]
fn variants() {
    assert_eq!(laid_out("\"A\"({})"), "\"A\"({})");
    assert_eq!(laid_out("\"A\"({} //c\n)"), "\"A\"({ })");
    assert_eq!(laid_out("\"A\"([] //c\n)"), "\"A\"([ ])");
    assert_eq!(laid_out("\"A\"({a:1})"), "\"A\"({\n\ta: 1\n})");
    assert_eq!(laid_out("\"A\"([[1]])"), "\"A\"([\n\t[1]\n])");
    // A long variant's values are not written.
    assert_eq!(laid_out("\"A\"(1 2 3 4 5)"), "\"A\"(\n\n\n\n\n\n)");
    assert_eq!(
        laid_out("a: \"A\"(1 2\n//p\n3 //s\n//c\n)"),
        "a: \"A\"(\n\n\n\n\n\n\t//c\n)\n"
    );
}

#[test]
fn comments_in_the_table() {
    let text = "//p\nk //s\n: //v\n[1, //t\n//c\n]//u\n//d";
    let place = |part: &str| text.find(part).expect("in the text") as u32;
    let comment = |kind: u32, part: &str| {
        let start = place(part);
        let end = start + part.len() as u32;
        [kind, start, end, end, 1]
    };
    let all = text.len() as u32;
    let (key, one) = (place("k"), place("1"));
    let (open, close) = (place("["), place("]") + 1);
    let table = [
        [5, 0, all, all, 11],
        comment(7, "//p"),
        [1, key, key + 1, key + 1, 1],
        comment(8, "//s"),
        comment(7, "//v"),
        [4, open, close, close, 4],
        [2, one, one + 1, one + 1, 1],
        comment(8, "//t"),
        comment(9, "//c"),
        comment(8, "//u"),
        comment(9, "//d"),
    ];
    assert_eq!(words(text), table.concat());
}

#[test]
fn comma_replaces_the_suffix() {
    assert_eq!(laid_out("[1 //a\n,//b\n]"), "[\n\t1 //b\n]");
    assert_eq!(laid_out("[1 //a\n,\n]"), "[1]");
}

#[test]
fn lengths() {
    let overlong = Err(refusal(1, 65535, 65535, 0, 0));
    assert_eq!(read(&[b' '; 65535]).map(|words| words.len()), Ok(5));
    assert_eq!(read(&[b' '; 65536]), overlong);
    // Length comes before UTF-8.
    assert_eq!(read(&[0xFF; 65536]), overlong);
    assert_eq!(tokens(&[b' '; 65536]), Err(refusal(1, 65535, 65535, 0, 0)));
    assert_eq!(unquote(&[b' '; 65536]), Err(refusal(1, 65535, 65535, 0, 0)));
}

#[test]
fn not_utf8() {
    let garbled = |place| Err(refusal(2, place, place, 0, 0));
    assert_eq!(read(b"ab\xFF"), garbled(2));
    assert_eq!(read(b"a\xC3\xA9\xE4\xB8"), garbled(3));
    assert_eq!(unquote(b"\xED\xA0\x80"), Err(refusal(2, 0, 0, 0, 0)));
    assert_eq!(tokens(b"#\xC0"), Err(refusal(2, 1, 1, 0, 0)));
}

#[test]
fn settings() {
    let bad = Err(refusal(16, 0, 0, 0, 0));
    let with = |indentation: &[u8]| Options {
        indentation: indentation.to_vec(),
        ..Options::default()
    };
    assert_eq!(
        format(b"[1\n//c\n]", &with(&[b'-'; 16])),
        Ok(b"[\n----------------1\n\n----------------//c\n]".to_vec())
    );
    assert_eq!(format(b"1", &with(&[b' '; 17])), bad);
    // 16 comes before 1 and 2.
    assert_eq!(format(b"\xFF", &with(b"\xFF")), bad);
    assert_eq!(format(&[b' '; 65536], &with(b"\xFF")), bad);
    let braces = Options {
        braces: true,
        ..Options::default()
    };
    assert_eq!(format(b"a:1", &braces), Ok(b"{\n\ta: 1\n}".to_vec()));
    assert_eq!(format(b"", &braces), Ok(b"{}".to_vec()));
    // The blank before a suffix comment is not among what is used.
    let space = Options {
        space: b"....".to_vec(),
        ..Options::default()
    };
    assert_eq!(format(b"1//c", &space), Ok(b"1 //c".to_vec()));
}

#[test]
fn identifiers() {
    for (text, answer) in [
        (&b"a"[..], true),
        (b"_0", true),
        (b"", false),
        (b"0a", false),
        (b"true", false),
        (b"false", false),
        (b"null", false),
        (b"True", true),
        (b"\xFF", false),
        ("é".as_bytes(), false),
    ] {
        assert_eq!(identifier(text), answer, "{text:?}");
    }
}

#[test]
fn comparison() {
    for (a, b, answer) in [
        ("[1 2]", " [ 1,\n2, ]", true),
        ("1 2", "[1 2]", true),
        ("{a:1}", "a:1", true),
        ("[1 [2]]", "[[1] 2]", false),
        ("[1]", "[2]", false),
        ("[a]", "['a']", false),
        ("'a'", "\"a\"", false),
        ("\"A\"()", "\"A\"", false),
        ("\"A\"(1)", "\"B\"(1)", false),
        ("[1] //c", "[1] //d", false),
        ("[1] //c", "[1] //c", true),
        ("[//c\n1]", "[1\n//c\n]", false),
        ("[1 //c\n]", "[1\n//c\n]", false),
        ("[]", "{}", false),
    ] {
        assert_eq!(
            compare(a.as_bytes(), b.as_bytes()),
            Ok(answer),
            "{a:?} {b:?}"
        );
    }
}

#[test]
fn comparison_refuses_the_first_first() {
    let stray = Err(refusal(3, 0, 1, 0, 0));
    assert_eq!(compare(b"#", b"\xFF"), stray);
    assert_eq!(compare(b"1", b"#"), stray);
    assert_eq!(compare(b"#", &[b' '; 65536]), stray);
    assert_eq!(
        compare(&[b' '; 65536], b"#"),
        Err(refusal(1, 65535, 65535, 0, 0))
    );
}
