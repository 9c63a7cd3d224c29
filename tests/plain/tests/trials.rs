//! Document 01's trials, marked and unmarked, and those of document 02's requests, on the plain
//! implementation.

use plain::answers::{self, Standing};
use plain::gym;
use plain::path_row::{self, Compared, PathRow, Step};

const EXAMPLE: &str = "label / I / P / less more / $ I / $ P / I P / state label next / 0 I 1 / 0 P 0 / 1 I 1 / \
    accept / 0 / 1 / scopes / 5 / from label to / 1 P 0 / 2 I 4 / 2 P 1 / 3 P 1 / at name mark / 0 hours 5 / \
    1 service 10 / 2 service 21 / 4 hours 40 / at open / 3 $ / start seek / 2 service / 3 service / 2 hours / ";

const BLANK: Step = Step {
    letter: 0,
    scope: 255,
};

fn lines(text: &str) -> String {
    text.replace(" / ", "\n")
}

/// The example with one piece replaced by another.
fn example(old: &str, new: &str) -> String {
    assert_eq!(EXAMPLE.matches(old).count(), 1, "{old}");
    lines(&EXAMPLE.replace(old, new))
}

/// What the program prints for a query: its line of values, then its rows, parted by ` / `.
fn listed(text: &str, query: usize) -> String {
    let mut out = [0; 1000];
    let len = answers::listing(text.as_bytes(), query, &mut out).unwrap();
    let text = String::from_utf8(out[..len].to_vec()).unwrap();
    let (names, rest) = text.split_once('\n').unwrap();
    assert!(["start seek found awaits", "start kind seek found awaits"].contains(&names));
    rest.trim_end()
        .replace("\nmark path", "")
        .replace('\n', " / ")
}

fn printed(text: &str) -> String {
    String::from_utf8(answers::program(text.as_bytes())).unwrap()
}

fn judged(text: &str, query: usize, row: &str) -> Result<Standing, u8> {
    answers::judge(text.as_bytes(), query, row.as_bytes(), &mut [BLANK; 63])
}

#[test]
fn the_example() {
    let due = "start seek found awaits / 2 service one - / mark path / 21 2 / start seek found awaits / 3 service one 3$ / \
        mark path / 10 3P1 / start seek found awaits / 2 hours one - / mark path / 40 2I4 / queries one several none share / \
        3 3 0 0 100 / ";
    assert_eq!(printed(&lines(EXAMPLE)), lines(due));
}

#[test]
fn marked() {
    assert_eq!(
        listed(&example("3 $ / ", ""), 1),
        "3 service one - / 10 3P1"
    );
    let one = example("3 $ / ", "1 $ / ");
    assert_eq!(listed(&one, 1), "3 service one 1$ / 10 3P1");
    assert_eq!(listed(&one, 0), "2 service one - / 21 2");
    assert_eq!(
        listed(&example("3 $ / ", "2 P / "), 2),
        "2 hours one - / 40 2I4"
    );
    assert_eq!(
        listed(&example("3 $ / ", "2 I / "), 2),
        "2 hours one 2I / 40 2I4"
    );
    let two = example("4 hours 40 / ", "4 hours 40 / 4 hours 41 / ");
    assert_eq!(listed(&two, 2), "2 hours several - / 40 2I4 / 41 2I4");
    let back = lines(
        &EXAMPLE
            .replace("1 P 0 / ", "0 P 2 / 1 P 0 / ")
            .replace("2 hours / ", "0 service / "),
    );
    assert_eq!(listed(&back, 2), "0 service one - / 21 0P2");
    let text = lines(EXAMPLE);
    assert_eq!(judged(&text, 0, "10 2P1"), Ok(Standing::Shadowed(0)));
    assert_eq!(judged(&text, 0, "21 2"), Ok(Standing::Visible));
    assert_eq!(judged(&text, 0, "5 2P1P0"), Ok(Standing::Unreached));
}

/// `found` counts declarations (02, K2), and all routes are listed.
#[test]
fn routes() {
    let ladder = |rungs: usize, declared: &str| {
        let edges: String = (0..rungs)
            .map(|s| format!("{s} I {0} / {s} P {0} / ", s + 1))
            .collect();
        lines(&format!(
            "label / I / P / less more / state label next / 0 I 0 / 0 P 0 / accept / 0 / scopes / {} / \
            from label to / {edges}at name mark / {declared}at open / start seek / 0 a / ",
            rungs + 2
        ))
    };
    assert_eq!(
        listed(&ladder(1, "1 a 7 / "), 0),
        "0 a one - / 7 0I1 / 7 0P1"
    );
    assert_eq!(
        listed(&ladder(1, "1 a 7 / 1 a 8 / "), 0),
        "0 a several - / 7 0I1 / 8 0I1 / 7 0P1 / 8 0P1"
    );
    assert_eq!(
        listed(&ladder(1, "0 a 7 / 1 a 7 / "), 0),
        "0 a several - / 7 0 / 7 0I1 / 7 0P1"
    );
    for (declared, due) in [
        ("30 a 7 / ", "1 1 0 0 100"),
        ("30 a 7 / 31 a 8 / ", "1 1 0 0 100"),
        ("30 a 7 / 30 a 8 / ", "1 0 1 0 0"),
        ("29 a 7 / 30 a 7 / ", "1 0 1 0 0"),
    ] {
        let due = format!("refused 9\nqueries one several none share\n{due}\n");
        assert_eq!(printed(&ladder(30, declared)), due);
    }
}

/// Counters and limits (02, K8): the wall has one name in both kinds, lane 2 and its profile have
/// limits alone.
fn two_kinds() -> String {
    let (above, _) = EXAMPLE.split_once("at name mark").unwrap();
    let rest = "at kind name mark / 0 c hours 5 / 0 l hours 6 / 1 c service 10 / 1 l service 11 / 2 l service 21 / 4 l hours 40 / \
        at open / 3 $ / start kind seek / 2 c service / 2 l service / 3 v service / 2 c hours / 2 l hours / ";
    lines(&format!("{above}{rest}"))
}

#[test]
fn kinds() {
    let text = two_kinds();
    for (query, due) in [
        "2 c service one - / 10 2P1",
        "2 l service one - / 21 2",
        "3 v service none 3$",
        "2 c hours one - / 5 2P1P0",
        "2 l hours one - / 40 2I4",
    ]
    .into_iter()
    .enumerate()
    {
        assert_eq!(listed(&text, query), due);
    }
    assert!(printed(&text).starts_with("start kind seek found awaits\n"));
    assert!(printed(&text).ends_with("5 4 0 1 80\n"));
    assert_eq!(judged(&text, 0, "10 2P1"), Ok(Standing::Visible));
    assert_eq!(judged(&text, 0, "11 2P1"), Ok(Standing::Unreached));
    assert_eq!(judged(&text, 1, "11 2P1"), Ok(Standing::Shadowed(0)));
    assert_eq!(gym::name_sought(text.as_bytes(), 3), b"hours");
}

#[test]
fn forms() {
    let text = two_kinds();
    let refused = |text: &str| gym::read(text.as_bytes(), &mut [0; 1000]).err();
    assert_eq!(refused(&text), None);
    let with = |old: &str, new: &str| {
        assert_eq!(text.matches(old).count(), 1, "{old}");
        refused(&text.replace(old, new))
    };
    assert_eq!(with("at kind name mark", "at name mark"), Some(2));
    assert_eq!(with("start kind seek", "start seek"), Some(2));
    assert_eq!(
        refused(&example("at name mark", "at kind name mark")),
        Some(2)
    );
    assert_eq!(refused(&example("start seek", "start kind seek")), Some(2));
    // a fault between the two names lines comes first
    let between = text
        .replace("start kind seek", "start seek")
        .replace("3 $\n", "5 $\n");
    assert_eq!(refused(&between), Some(3));
    for kind in ["C", "{", "", "cc", "1", " "] {
        assert_eq!(
            with("1 c service", &format!("1 {kind} service")),
            Some(2),
            "{kind}"
        );
    }
    assert_eq!(
        with("0 c hours 5\n0 l hours 6", "0 l hours 6\n0 c hours 5"),
        Some(4)
    );
    assert_eq!(with("0 c hours 5\n0 l hours 6", "0 c z 5\n0 l a 6"), None);
    assert_eq!(
        with("0 c hours 5\n0 l hours 6", "0 c hours 5\n0 c hours 5"),
        Some(4)
    );

    let mut cells = [0; 1000];
    let mut out = [0; 1000];
    let n = gym::read(text.as_bytes(), &mut cells).unwrap();
    assert_eq!(cells[0], 1);
    let m = gym::write(&cells[..n], &mut out).unwrap();
    assert_eq!(out[..m], *text.as_bytes());
    cells[0] = 2;
    let m = gym::write(&cells[..n], &mut out).unwrap();
    assert!(out[..m].starts_with(b"label\n"));
    for form in [0, 3, 4, u64::MAX] {
        cells[0] = form;
        assert_eq!(gym::write(&cells[..n], &mut out), Err(2));
    }
}

/// A file in the other form (02, K9): there and back, 14 after 1 to 6 and before 9.
#[test]
fn conversions() {
    let convert = |to_old: bool, text: &str, room: usize| {
        let mut out = vec![b'#'; room];
        let f = if to_old {
            answers::to_old
        } else {
            answers::to_new
        };
        let n = f(text.as_bytes(), &mut out)?;
        assert!(out[n..].iter().all(|&b| b == b'#'));
        Ok(String::from_utf8(out[..n].to_vec()).unwrap())
    };
    let (old, two) = (lines(EXAMPLE), two_kinds());
    let new = lines(
        &EXAMPLE
            .replace("at name mark", "at kind name mark")
            .replace("start seek", "start kind seek")
            .replace(" hours", " v hours")
            .replace(" service", " v service"),
    );
    for text in [&old, &new] {
        assert_eq!(convert(true, text, 1000), Ok(old.clone()));
        assert_eq!(convert(false, text, 1000), Ok(new.clone()));
        assert_eq!(convert(true, text, old.len()), Ok(old.clone()));
        assert_eq!(convert(false, text, new.len()), Ok(new.clone()));
        assert_eq!(convert(true, text, old.len() - 1), Err(9));
        assert_eq!(convert(false, text, new.len() - 1), Err(9));
    }
    assert_eq!(convert(true, &two, 1000), Err(14));
    assert_eq!(convert(false, &two, 1000), Ok(two));
    // a kind in the last query alone, with no room; and a fault in the line above it
    let last = new.replace("2 v hours", "2 l hours");
    assert_eq!(convert(true, &last, 0), Err(14));
    assert_eq!(convert(false, &last, 0), Err(9));
    let fault = last.replace("3 v service", "5 v service");
    assert_eq!(convert(true, &fault, 0), Err(3));
    assert_eq!(convert(true, &last.replace("I P", "I I"), 0), Err(6));
}

/// Two imports of a lane, the later with the higher turn (02, K12).
fn two_imports(edges: &str, declared: &str, open: &str) -> String {
    lines(&format!(
        "label / I / P / less more / $ I / $ P / I P / state label next / 0 I 1 / 0 P 0 / 1 I 1 / accept / 0 / 1 / scopes / 5 / \
        from label turn to / {edges}at kind name mark / {declared}at open / {open}start kind seek / 2 v hours / "
    ))
}

#[test]
fn turns() {
    let (later, equal) = ("2 I 1 3 / 2 I 2 4 / ", "2 I 1 3 / 2 I 1 4 / ");
    let both = "3 v hours 30 / 4 v hours 40 / ";
    let seen = |edges, declared, open| listed(&two_imports(edges, declared, open), 0);
    assert_eq!(seen(later, both, ""), "2 v hours one - / 40 2I4");
    assert_eq!(
        seen(later, "3 v hours 30 / ", ""),
        "2 v hours one - / 30 2I3"
    );
    assert_eq!(
        seen(equal, both, ""),
        "2 v hours several - / 30 2I3 / 40 2I4"
    );
    assert_eq!(
        seen("2 I 99 4 / ", both, "2 I / "),
        "2 v hours one 2I / 40 2I4"
    );
    assert_eq!(seen(later, both, "2 P / "), "2 v hours one - / 40 2I4");
    assert_eq!(
        seen("2 I 1 4 / 2 I 2 3 / ", both, ""),
        "2 v hours one - / 30 2I3"
    );
    for (open, due) in [("3 $", "-"), ("4 $", "4$"), ("2 I", "2I"), ("3 I", "-")] {
        let text = two_imports(later, both, &format!("{open} / "));
        assert_eq!(listed(&text, 0), format!("2 v hours one {due} / 40 2I4"));
    }
    let refused = |edges| answers::summary(two_imports(edges, both, "").as_bytes(), &mut [0; 99]);
    assert_eq!(refused("2 I 100 4 / "), Err(3));
    assert_eq!(refused("2 I 00 4 / "), Err(2));
    assert_eq!(refused("1 I 2 4 / 1 I 3 4 / "), Err(4));
    assert_eq!(refused("1 I 2 4 / 1 I 3 3 / 1 I 4 4 / "), Err(4));
    assert_eq!(refused("1 I 3 3 / 1 I 2 4 / "), Err(4));
    let text = two_imports(later, both, "");
    assert_eq!(judged(&text, 0, "40 2I4"), Ok(Standing::Visible));
    assert_eq!(judged(&text, 0, "30 2I3"), Ok(Standing::Shadowed(0)));
    let compared = |a: &str, b: &str| {
        let (mut first, mut second) = ([BLANK; 63], [BLANK; 63]);
        let (a, b) = (a.as_bytes(), b.as_bytes());
        path_row::compare(text.as_bytes(), a, b, &mut first, &mut second)
    };
    assert_eq!(compared("1 2I4", "1 2I3"), Ok(Compared::First(0)));
    assert_eq!(compared("1 2I3", "1 2I4"), Ok(Compared::Second(0)));
    assert_eq!(compared("1 2I1", "1 2I4"), Ok(Compared::Neither(0)));
    let mixed = text.replace("at kind name mark", "at name mark");
    assert_eq!(answers::summary(mixed.as_bytes(), &mut []), Err(2));
}

/// How far two rows agree, and after how many steps a judged path was caught (02, K7).
#[test]
fn agreement() {
    let text = lines(EXAMPLE);
    let compared = |a: &str, b: &str| {
        let (mut first, mut second) = ([BLANK; 63], [BLANK; 63]);
        let (a, b) = (a.as_bytes(), b.as_bytes());
        path_row::compare(text.as_bytes(), a, b, &mut first, &mut second)
    };
    let chain = |n: usize| (1..=n).map(|i| format!("P{i}")).collect::<String>();
    let (full, less) = (format!("1 0{}", chain(63)), format!("1 0{}", chain(62)));
    let (full, less) = (full.as_str(), less.as_str());
    for (a, b, due) in [
        ("1 2", "1 2", Compared::Neither(0)),
        ("1 2P1P0", "7 2P1P0", Compared::Neither(2)),
        (full, full, Compared::Neither(63)),
        (less, full, Compared::First(62)),
        ("1 2P1P0", "1 3P1P0", Compared::Neither(0)),
        ("1 2P1P0", "1 2P1P4", Compared::Neither(1)),
        ("1 2P1P0", "1 2P1I0", Compared::Second(1)),
        ("1 2P1", "1 2P1P0I4", Compared::First(1)),
        ("1 2X1Y0", "1 2X1Z0", Compared::Neither(1)),
    ] {
        assert_eq!(compared(a, b), Ok(due), "{a} {b}");
    }
    let way = |order: &str, declared: &str| {
        lines(&format!(
            "label / I / P / less more / {order}state label next / 0 I 0 / 0 P 0 / accept / 0 / scopes / 6 / \
            from label to / 0 I 3 / 0 P 1 / 1 I 4 / 1 P 2 / 2 I 5 / at name mark / {declared}at open / start seek / 0 a / "
        ))
    };
    for (order, declared, due) in [
        ("I P / ", "2 a 2 / 3 a 3 / ", 0),
        ("I P / ", "2 a 2 / 4 a 4 / ", 1),
        ("I P / ", "2 a 2 / 3 a 3 / 4 a 4 / ", 1),
        ("I $ / I P / ", "2 a 2 / 3 a 3 / 5 a 5 / ", 2),
        ("$ I / $ P / I P / ", "1 a 1 / 2 a 2 / 3 a 3 / ", 1),
        ("$ I / $ P / I P / ", "0 a 0 / 2 a 2 / ", 0),
    ] {
        let due = Ok(Standing::Shadowed(due));
        assert_eq!(judged(&way(order, declared), 0, "2 0P1P2"), due);
    }
}

#[test]
fn unmarked() {
    let none = example("accept / 0 / 1 / ", "accept / ");
    assert!((0..3).all(|query| listed(&none, query).ends_with("none -")));
    assert!(printed(&none).ends_with("3 0 0 3 0\n"));
    let few = example("2 service / 3 service / 2 hours / ", "");
    assert_eq!(printed(&few), "queries one several none share\n0 0 0 0 -\n");
    let refused = |old, new| answers::summary(example(old, new).as_bytes(), &mut [0; 100]).err();
    assert_eq!(refused("scopes / 5", "scopes / 64"), None);
    assert_eq!(refused("scopes / 5", "scopes / 65"), Some(3));
    assert_eq!(refused("scopes / 5", "scopes / 0"), Some(3));
    assert_eq!(refused("0 hours", "0 abcdefghijklmnop"), None);
    assert_eq!(refused("0 hours", "0 abcdefghijklmnopq"), Some(2));
    assert_eq!(refused("0 hours 5", "0 hours 65535"), None);
    assert_eq!(refused("0 hours 5", "0 hours 65536"), Some(3));
    assert_eq!(refused("0 hours 5", "0 hours 100000"), Some(2));
    assert_eq!(refused("$ P / I P", "$ P / I I"), Some(6));
    assert_eq!(refused("$ P / I P", "$ P / P I"), None);
    assert_eq!(refused("$ I / $ P / I P", "$ I / I P"), Some(6));
    let text = lines(EXAMPLE);
    assert_eq!(judged(&text, 3, "x"), Err(7));
    assert_eq!(judged(&text, 0, "x"), Err(8));
    assert_eq!(
        answers::judge(text.as_bytes(), 0, b"1 2P1", &mut []),
        Err(9)
    );
    assert_eq!(gym::name_sought(text.as_bytes(), 1), b"service");
    assert_eq!(gym::name_sought(&text.as_bytes()[1..], 1), b"");
}

#[test]
fn shares() {
    let summed = |one: u64, queries: u64| {
        let mut out = Vec::new();
        answers::push_summary(&[queries - one, one, 0], &mut out);
        String::from_utf8(out).unwrap()
    };
    let due = [
        (1, 8, 12),
        (3, 8, 38),
        (5, 8, 62),
        (7, 8, 88),
        (1, 3, 33),
        (2, 3, 67),
        (0, 3, 0),
        (1, 200, 0),
        (3, 200, 2),
        (256, 256, 100),
    ];
    for (one, queries, share) in due {
        assert!(summed(one, queries).ends_with(&format!(" {share}\n")));
    }
}

#[test]
fn rows() {
    let good = ["0 0", "65535 63", "10 3P1", "1 0A0A0"];
    let bad = [
        "", "1", "1 ", " 1", "01 1", "1 01", "65536 1", "1 64", "1 1P", "1 1p2", "1 1P2 ",
        "1 1P2\n", "1  1", "1 1$",
    ];
    assert!(good
        .iter()
        .all(|row| PathRow::parse(row.as_bytes()).is_some_and(|r| r.write() == row.as_bytes())));
    assert!(bad
        .iter()
        .all(|row| PathRow::parse(row.as_bytes()).is_none()));
    let steps = |n| format!("1 0{}", "A1".repeat(n));
    assert!(PathRow::parse(steps(63).as_bytes()).is_some());
    assert!(PathRow::parse(steps(64).as_bytes()).is_none());
    let text = lines(EXAMPLE);
    let compared = |a: &str, b: &str, room: usize| {
        path_row::compare(
            text.as_bytes(),
            a.as_bytes(),
            b.as_bytes(),
            &mut [BLANK; 63],
            &mut vec![BLANK; room],
        )
    };
    assert_eq!(compared("1 2", "1 2P1", 63), Ok(Compared::First(0)));
    assert_eq!(compared("1 2P1", "1 2I1", 63), Ok(Compared::Second(0)));
    assert_eq!(compared("1 2P1", "1 2P3", 63), Ok(Compared::Neither(0)));
    assert_eq!(compared("1 2", "1 2Z3", 63), Ok(Compared::Neither(0)));
    assert_eq!(compared("1 2", "1 3P1", 63), Ok(Compared::Neither(0)));
    assert_eq!(compared("1 2", "1 2P1", 0), Err(9));
    assert_eq!(compared("1 2", "1 2P", 0), Err(8));
}

/// The number of lawful beginnings (02, K11).
#[test]
fn beginnings() {
    let count = |text: &str, query| answers::beginnings(text.as_bytes(), query);
    let text = lines(EXAMPLE);
    let due = [Ok(1), Ok(2), Ok(2), Err(7)];
    assert!((0..4).all(|query| count(&text, query) == due[query]));
    assert_eq!(count(&text[1..], 3), Err(2));
    assert_eq!(count(&example("accept / 0 / 1 / ", "accept / "), 0), Ok(0));
    // without the lane's own name the wall's is met, and not gone beyond; without any, all is
    let wall = "2 service 21 / ";
    assert_eq!(count(&example(wall, ""), 0), Ok(3));
    assert_eq!(
        count(&example("1 service 10 / 2 service 21 / ", ""), 0),
        Ok(4)
    );
    let chain: String = (0..63).map(|s| format!("{s} P {} / ", s + 1)).collect();
    let along = |labels: &str, rules: &str, edges: &str| {
        lines(&format!(
            "label / {labels}less more / state label next / {rules}accept / 0 / scopes / 64 / from label to / {edges}at name mark / \
            at open / start seek / 0 a / "
        ))
    };
    assert_eq!(count(&along("P / ", "0 P 0 / ", &chain), 0), Ok(64));
    let ladder = |rungs: usize| {
        let edges: String = (0..rungs)
            .map(|s| format!("{s} I {0} / {s} P {0} / ", s + 1))
            .collect();
        count(&along("I / P / ", "0 I 0 / 0 P 0 / ", &edges), 0)
    };
    assert_eq!(ladder(28), Ok((1 << 29) - 1));
    assert_eq!(ladder(29), Ok(1_000_000_000));
    // the later import leads to the name and cuts the earlier, and imports cut the parent
    let both = "3 v hours 30 / 4 v hours 40 / ";
    let turned = |edges, declared| count(&two_imports(edges, declared, ""), 0);
    assert_eq!(turned("2 I 1 3 / 2 I 2 4 / 2 P 0 1 / ", both), Ok(2));
    assert_eq!(turned("2 I 1 3 / 2 I 1 4 / 2 P 0 1 / ", both), Ok(3));
    assert_eq!(turned("2 I 1 3 / 2 I 2 4 / 2 P 0 1 / ", ""), Ok(4));
}

/// Who reads a declaration (02, K5), by its place among the rows.
#[test]
fn readers() {
    let read_by = |text: &str, place: usize| {
        let mut out = [0; 200];
        answers::readers(text.as_bytes(), place, &mut out)
            .map(|len| String::from_utf8_lossy(&out[..len]).replace('\n', " "))
    };
    let text = lines(EXAMPLE);
    for (place, due) in ["at 0 1 3 ", "at 1 3 ", "at 2 ", "at 2 4 "]
        .iter()
        .enumerate()
    {
        assert_eq!(read_by(&text, place).as_deref(), Ok(*due));
    }
    assert_eq!(read_by(&text, 4), Err(11));
    assert_eq!(read_by(&text[1..], 4), Err(2));
    let two = example("1 service 10 / ", "1 service 10 / 1 service 11 / ");
    assert_eq!(read_by(&two, 2).as_deref(), Ok("at 1 3 "));
    let nobody = example("accept / 0 / 1 / ", "accept / ");
    assert_eq!(read_by(&nobody, 0).as_deref(), Ok("at "));
}

/// Scopes numbered for storage (02, K13), and the way back.
#[test]
fn renumbering() {
    let renumber = |text: &str, room: usize, places: usize| {
        let (mut out, mut list) = (vec![0; room], vec![0; places]);
        let told = answers::renumber(text.as_bytes(), &mut out, &mut list);
        assert!(told.is_ok() || out.iter().chain(&list).all(|&b| b == 0));
        let words = |b: &[u8]| String::from_utf8(b.to_vec()).unwrap();
        told.map(|(n, m)| (words(&out[..n]), words(&list[..m])))
    };
    let back = |text: &str, was: &str| {
        let mut out = vec![0; 1000];
        let n = answers::back(text.as_bytes(), was.as_bytes(), &mut out)?;
        Ok::<_, u8>(String::from_utf8(out[..n].to_vec()).unwrap())
    };
    let text = lines(EXAMPLE);
    let was = "was\n2\n4\n1\n0\n3\n";
    let due = EXAMPLE
        .replace(
            "1 P 0 / 2 I 4 / 2 P 1 / 3 P 1 / ",
            "0 I 1 / 0 P 2 / 2 P 3 / 4 P 2 / ",
        )
        .replace(
            "0 hours 5 / 1 service 10 / 2 service 21 / 4 hours 40 / ",
            "0 service 21 / 1 hours 40 / 2 service 10 / 3 hours 5 / ",
        )
        .replace("3 $ / ", "4 $ / ")
        .replace(
            "2 service / 3 service / 2 hours / ",
            "0 service / 4 service / 0 hours / ",
        );
    let (file, list) = renumber(&text, 1000, 200).unwrap();
    assert_eq!((file.as_str(), list.as_str()), (&lines(&due)[..], was));
    assert_eq!(renumber(&text, file.len(), 14), Ok((file.clone(), list)));
    assert_eq!(renumber(&text, file.len() - 1, 14), Err(9));
    assert_eq!(renumber(&text, file.len(), 13), Err(9));
    assert_eq!(renumber(&text[1..], 0, 0), Err(2));
    assert_eq!(back(&file, was), Ok(text.clone()));
    for faulty in [
        "",
        "was",
        "was\n",
        "2\n4\n1\n0\n3\n",
        "was\n2\n4\n1\n0\n3",
        "was\n2\n4\n1\n0\n",
        "was\n2\n4\n1\n0\n3\n5\n",
        "was\n2\n4\n1\n0\n0\n",
        "was\n2\n4\n1\n0\n5\n",
        "was\n2\n04\n1\n0\n3\n",
        "was\n2\n4\n1\n\n0\n3\n",
        "was\n2\n000004\n1\n0\n3\n",
        "was\n\n2\n4\n1\n0\n3\n",
    ] {
        assert_eq!(back(&file, faulty), Err(17), "{faulty:?}");
        assert_eq!(back(&file[1..], faulty), Err(2));
    }
    let turned = |edges: &str| two_imports(edges, "3 v hours 30 / 4 v hours 40 / ", "");
    let (_, list) = renumber(&turned("2 I 1 4 / 2 I 2 3 / 2 P 0 1 / "), 1000, 200).unwrap();
    assert_eq!(list, "was\n2\n4\n3\n1\n0\n");
}

/// The exchange with DOT (02, K14).
#[test]
fn drawings() {
    let drawn = |text: &str| {
        let mut out = [0; 1000];
        answers::dot(text.as_bytes(), &mut out)
            .map(|len| String::from_utf8_lossy(&out[..len]).replace('\n', " / "))
    };
    let taken = |text: &str, drawn: &str| {
        let mut out = [0; 1000];
        answers::undot(text.as_bytes(), drawn.as_bytes(), &mut out)
            .map(|len| String::from_utf8_lossy(&out[..len]).into_owned())
    };
    let text = lines(EXAMPLE);
    let edges = "1 -> 0 [label=\"P\"]; / 2 -> 4 [label=\"I\"]; / 2 -> 1 [label=\"P\"]; / 3 -> 1 [label=\"P\"]; / ";
    let due = format!("digraph scopes {{ / 0; / 1; / 2; / 3; / 4; / {edges}}} / ");
    assert_eq!(drawn(&text), Ok(due.clone()));
    assert_eq!(drawn(&text[1..]), Err(2));
    assert_eq!(taken(&text, &lines(&due)), Ok(text.clone()));
    // the later import is not drawn as such, and comes back at turn 0
    let later = two_imports("2 I 1 4 / 2 I 2 3 / ", "", "");
    let turned = drawn(&later).unwrap();
    assert!(turned.starts_with("// turns dropped / digraph scopes { / "));
    assert!(turned.contains("2 -> 4 [label=\"I\"]; / 2 -> 3 [label=\"I\"]; / "));
    assert_eq!(
        taken(&later, &lines(&turned)),
        Ok(later.replace("2 I 1 4\n2 I 2 3\n", "2 I 0 3\n2 I 0 4\n"))
    );
    let with = |body: &str| taken(&text, &format!("digraph scopes{{{body}}}"));
    let none = example("1 P 0 / 2 I 4 / 2 P 1 / 3 P 1 / ", "");
    assert_eq!(with("4;3;2;1;0;"), Ok(none));
    assert_eq!(with("0;1;2;3;04;"), Err(18));
    assert_eq!(with("0;1;2;3;"), Err(19));
    assert_eq!(with("0;1;2;3;4;0->5[label=\"P\"];"), Err(3));
    let twice = "0->1[label=\"P\"];".repeat(2);
    assert_eq!(with(&format!("0;1;2;3;4;{twice}")), Err(4));
    assert_eq!(with(&format!("0;1;2;3;{twice}4;")), Err(18));
}
