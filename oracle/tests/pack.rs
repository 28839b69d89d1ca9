//! Listings: what each line makes, what is refused and at which line, and how much a listing may be.

use oracle::desk::{Said, Verb};
use oracle::pack::{pack, Refused, EXPECTED, LONGEST, MOST, TOO_MUCH};

/// The number of what was expected and the line.
fn refused(listing: impl AsRef<[u8]>) -> (usize, usize) {
    match pack(listing.as_ref()) {
        Err(Refused::Line(expected, line)) => (expected, line),
        other => panic!("{other:?}"),
    }
}

fn packed(listing: impl AsRef<[u8]>) -> Vec<u8> {
    pack(listing.as_ref()).unwrap()
}

#[test]
fn each_kind() {
    for (line, record) in [
        (
            "point 3 258",
            [1, 3, 0, 0, 0, 0, 0, 0, 0, 0, 0, 0, 2, 1, 0, 0],
        ),
        (
            "point 255 4294967295",
            [1, 255, 0, 0, 0, 0, 0, 0, 0, 0, 0, 0, 255, 255, 255, 255],
        ),
        (
            "link 1 20 513 2",
            [2, 1, 2, 0, 20, 0, 0, 0, 1, 2, 0, 0, 0, 0, 0, 0],
        ),
        (
            "link 255 -1 2147483647 0",
            [
                2, 255, 0, 0, 255, 255, 255, 255, 255, 255, 255, 127, 0, 0, 0, 0,
            ],
        ),
        (
            "ordinary 1 -2 3",
            [3, 1, 3, 0, 254, 255, 255, 255, 0, 0, 0, 0, 0, 0, 0, 0],
        ),
        (
            "wait 4 5 -2147483648",
            [4, 4, 5, 0, 0, 0, 0, 128, 0, 0, 0, 0, 0, 0, 0, 0],
        ),
        ("mark", [255; 16]),
        (
            "event 256 7 0,9,31",
            [0, 1, 0, 0, 7, 0, 0, 0, 1, 2, 0, 128, 0, 0, 0, 0],
        ),
        (
            "event 4294967295 254 1",
            [255, 255, 255, 255, 254, 0, 0, 0, 2, 0, 0, 0, 0, 0, 0, 0],
        ),
        (
            "event 0 none none",
            [0, 0, 0, 0, 255, 0, 0, 0, 0, 0, 0, 0, 0, 0, 0, 0],
        ),
        (
            "event 00 000 031,0000000000000000000000000",
            [0, 0, 0, 0, 0, 0, 0, 0, 1, 0, 0, 128, 0, 0, 0, 0],
        ),
        (
            "ordinary 000255 -0 00",
            [3, 255, 0, 0, 0, 0, 0, 0, 0, 0, 0, 0, 0, 0, 0, 0],
        ),
        (
            "wait 0 0 -0000000000000000000000000001",
            [4, 0, 0, 0, 255, 255, 255, 255, 0, 0, 0, 0, 0, 0, 0, 0],
        ),
    ] {
        assert_eq!(packed(line), record, "{line}");
    }
}

#[test]
fn words_and_lines() {
    assert_eq!(packed(""), []);
    assert_eq!(packed("\n \r\n\t\n# \r \n#"), []);
    let mark = [255; 16];
    for listing in [
        "mark",
        "mark\n",
        "mark\r\n",
        " \tmark\t ",
        "\nmark#mark",
        "\r\n\r\nmark # \r\r\n",
    ] {
        assert_eq!(packed(listing), mark, "{listing:?}");
    }
    assert_eq!(packed("mark\nmark\r\nmark"), [255; 48]);
    assert_eq!(packed("point\t1  2#3"), packed("point 1 2"));
    // A CR that ends no line is a byte of a word.
    assert_eq!(refused("mark\r"), (1, 1));
    assert_eq!(refused("mark\n\r"), (1, 2));
    assert_eq!(refused("mark \r\r\n"), (2, 1));
    assert_eq!(refused("point 1 2\r\r\n"), (5, 1));
    assert_eq!(refused("point\r1 2\n"), (1, 1));
    // So is every other byte.
    for byte in [0, 0x0b, 0x0c, 0x1a, 0x85, 0xa0, 0xff] {
        assert_eq!(refused([b"mark ", &[byte][..]].concat()), (2, 1));
    }
}

#[test]
fn refusals() {
    for (line, expected) in [
        ("Mark", 1),
        ("marks 1", 1),
        ("part 3", 1),
        ("0", 1),
        ("none", 1),
        ("mark 0", 2),
        ("point 1", 2),
        ("point 1 2 3", 2),
        ("point x", 2),
        ("link 1 2 3", 2),
        ("link 1 2 3 4 5", 2),
        ("ordinary", 2),
        ("event 1 2 3, 4", 2),
        ("point 256 x", 3),
        ("point -0 0", 3),
        ("point +1 0", 3),
        ("point 0x1 0", 3),
        ("point 18446744073709551616 0", 3),
        ("link none x x x", 3),
        ("link 0 0 0 256", 3),
        ("ordinary -1 0 0", 3),
        ("ordinary 0 0 -0", 3),
        ("wait 0 256 x", 3),
        ("link 0 2147483648 x x", 4),
        ("link 0 0 -2147483649 256", 4),
        ("ordinary 0 - 256", 4),
        ("ordinary 0 --1 0", 4),
        ("wait 0 0 1-", 4),
        ("wait 0 0 -+1", 4),
        ("wait 0 0 -99999999999999999999999999", 4),
        ("point 0 4294967296", 5),
        ("point 0 -0", 5),
        ("event none x x", 5),
        ("event 4294967296 x x", 5),
        ("event 0 255 x", 6),
        ("event 0 -0 none", 6),
        ("event 0 None none", 6),
        ("event 0 0 32", 7),
        ("event 0 0 -0", 7),
        ("event 0 0 1,2,1", 7),
        ("event 0 0 1,01", 7),
        ("event 0 0 ,", 7),
        ("event 0 0 1,", 7),
        ("event 0 0 ,1", 7),
        ("event 0 0 1,,2", 7),
        ("event 0 0 none,1", 7),
        ("event 0 0 1;2", 7),
        ("event 0 0 4294967296", 7),
    ] {
        assert_eq!(refused(line), (expected, 1), "{line}");
        // The first bad line is the one that is said, whatever comes after it.
        let listing = format!("mark\r\n# {line}\n\n{line}\nno\n");
        assert_eq!(refused(listing), (expected, 4), "{line}");
    }
}

#[test]
fn how_much() {
    let mut longest = b"mark\n".to_vec();
    longest.resize(LONGEST, b' ');
    assert_eq!(packed(&longest), [255; 16]);
    longest.push(b' ');
    assert_eq!(pack(&longest), Err(Refused::TooMuch));
    longest[0] = b'x';
    assert_eq!(pack(&longest), Err(Refused::TooMuch));
    longest.pop();
    assert_eq!(refused(&longest), (1, 1));
    let marks = "mark\n".repeat(MOST);
    assert_eq!(packed(&marks).len(), 16 * MOST);
    assert_eq!(packed(format!("{marks}\n#\n")).len(), 16 * MOST);
    let more = format!("{marks}mark");
    assert_eq!(pack(more.as_bytes()), Err(Refused::TooMuch));
    // A bad line is said first, also past the last record that there is room for.
    assert_eq!(refused(format!("{more}\nmark 1")), (2, MOST + 2));
}

#[test]
fn what_is_said() {
    let said = |listing: &[u8]| Verb::Pack.said(listing);
    let line = |text: String, status| Said {
        output: Vec::new(),
        errors: text.into_bytes(),
        status,
    };
    let good = Said {
        output: vec![255; 16],
        errors: Vec::new(),
        status: 0,
    };
    assert_eq!(said(b"mark"), good);
    for (k, bad) in [
        "x",
        "mark mark",
        "point x 0",
        "wait 0 0 x",
        "point 0 x",
        "event 0 x 0",
        "event 0 0 x",
    ]
    .iter()
    .enumerate()
    {
        let text = format!("pack: expected {}, at line 2\n", EXPECTED[k]);
        assert_eq!(said(format!("mark\n{bad}").as_bytes()), line(text, 1));
    }
    let long = vec![b'\n'; LONGEST + 1];
    assert_eq!(said(&long), line(format!("{TOO_MUCH}\n"), 2));
}
