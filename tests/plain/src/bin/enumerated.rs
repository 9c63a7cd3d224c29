//! Holds the search against the enumerator: `enumerated [COUNT [SEED]]`, 20,000 random gyms if not
//! said.
//!
//! Same listing (entries, found, awaits), the same number of lawful beginnings, the same readers of each declaration, the same verdict on
//! random path rows, comparison as the rules have it, both with their numbers of equal steps; a settled listing stays the same in random completions, and any listing in those
//! that add at a pair that is not decisive; reading and writing are inverse, on damaged files and
//! tables too; an old file, the same file with every kind `v` and that with every turn 0 give the
//! same answers, and convert to one another.

use plain::answers::{self, Standing};
use plain::enumerate::{self, name_of, Graph, Name, Path, Row, Verdict};
use plain::gym::{self, Form, Gym, Query};
use plain::path_row::{self, Compared, PathRow, Step};
use plain::random::{self, Rng};
use plain::search::{Rules, Search};

const BLANK: Step = Step {
    letter: 0,
    scope: 255,
};

#[derive(Default, Debug)]
struct Counts {
    old: usize,
    with_kinds: usize,
    with_turns: usize,
    only_turns_0: usize,
    listings: usize,
    entries_by_turns: usize,
    awaits_by_turns: usize,
    other_kind_reached: usize,
    unsettled: usize,
    several: usize,
    one_by_more_routes: usize,
    none: usize,
    beginnings: usize,
    no_beginning: usize,
    fewer_beginnings: usize,
    fewer_beginnings_by_turns: usize,
    one_edge_a_scope: usize,
    /// Of all declarations.
    readers: usize,
    read_by_nobody: usize,
    read_by_all: usize,
    other_readers_by_turns: usize,
    other_readers_of_the_name: usize,
    completions: usize,
    completions_at_one_pair: usize,
    visible: usize,
    shadowed: usize,
    /// By the number of steps after which the name was caught, the last for all above.
    caught_after: [usize; 5],
    shadowed_by_turns: usize,
    unreached: usize,
    more_specific: usize,
    more_specific_by_turns: usize,
    /// By the number of equal steps, the last for all above.
    agree_in: [usize; 5],
    damaged_accepted: usize,
    damaged_refused: [usize; 10],
    table_refused: [usize; 10],
    table_written: usize,
    rows_refused: usize,
}

fn fail(seed: usize, what: &str, text: &[u8]) -> ! {
    eprintln!("gym {seed}: {what}\n{}", String::from_utf8_lossy(text));
    std::process::exit(1)
}

fn path_of(gym: &Gym, row: &PathRow) -> Option<Path> {
    let label = |letter| gym.labels.iter().position(|&l| l == letter);
    let mut path = Path {
        start: row.start as usize,
        steps: Vec::new(),
    };
    for step in &row.steps {
        path.steps
            .push((label(step.letter)? as u8, step.scope as usize));
    }
    Some(path)
}

/// Turns that a completion's edges take: any whole number, those of the file and others.
const TURNS: [u64; 8] = [0, 1, 2, 3, 10, 99, 100, 1 << 40];

/// A random completion: rows at these open pairs, new scopes with any rows; of the name sought and
/// of the same in another kind. Its edges have any turns and repeat no from, label and to.
fn completion(rng: &mut Rng, gym: &Gym, sought: &Name, open: &[(u8, u8)]) -> Graph {
    let mut graph = Graph::of(gym);
    let other = ('w', sought.1.clone());
    let name = |rng: &mut Rng| {
        if rng.below(4) == 0 {
            other.clone()
        } else {
            sought.clone()
        }
    };
    let old = graph.scopes;
    graph.scopes += rng.below(3);
    for &(scope, e) in open {
        for _ in 0..rng.below(3) {
            match enumerate::end(e) {
                None => {
                    let name = name(rng);
                    graph
                        .declarations
                        .push((scope as usize, name, 70_000 + rng.below(3) as u64))
                }
                Some(label) => {
                    let to = rng.below(graph.scopes);
                    add_edge(rng, &mut graph, scope as usize, label, to)
                }
            }
        }
    }
    for new in old..graph.scopes {
        if rng.below(2) == 0 {
            let name = name(rng);
            graph.declarations.push((new, name, rng.below(3) as u64));
        }
        for label in 0..graph.labels {
            for _ in 0..rng.below(3) {
                let to = rng.below(graph.scopes);
                add_edge(rng, &mut graph, new, label, to);
            }
        }
    }
    graph.declarations.sort();
    graph.declarations.dedup();
    graph
}

/// One edge more, of any turn, unless it is there.
fn add_edge(rng: &mut Rng, graph: &mut Graph, from: usize, label: u8, to: usize) {
    let row = Row {
        from,
        label,
        turn: *rng.pick(&TURNS),
        to,
    };
    let same = |r: &Row| (r.from, r.label, r.to) == (from, label, to);
    if !graph.edges.iter().any(same) {
        graph.edges.push(row);
    }
}

/// The same gym with every turn 0.
fn without_turns(gym: &Gym) -> Gym {
    Gym {
        turns: vec![0; gym.edges.len()],
        ..gym.clone()
    }
}

fn check_listing(
    seed: usize,
    rng: &mut Rng,
    text: &[u8],
    gym: &Gym,
    n: usize,
    query: Query,
    c: &mut Counts,
) {
    let due = enumerate::listing(gym, query);
    let mut out = vec![b'#'; due.len() + 3];
    if answers::listing(text, n, &mut out) != Ok(due.len())
        || out[..due.len()] != due
        || out[due.len()..] != *b"###"
    {
        fail(
            seed,
            &format!("listing {n}: {}", String::from_utf8_lossy(&out)),
            text,
        );
    }
    let mut short = vec![b'#'; due.len() - 1];
    if answers::listing(text, n, &mut short) != Err(9) || short.iter().any(|&b| b != b'#') {
        fail(seed, "a short buffer", text);
    }
    let graph = Graph::of(gym);
    let sought = name_of(query.name);
    let entries = graph.entries(query.start as usize, &sought);
    c.listings += 1;
    let equal = without_turns(gym);
    let by_labels = Graph::of(&equal).entries(query.start as usize, &sought);
    let awaits = enumerate::awaits(gym, query);
    c.entries_by_turns += usize::from(entries != by_labels);
    c.awaits_by_turns +=
        usize::from(entries == by_labels && awaits != enumerate::awaits(&equal, query));
    let others = "clv".chars().filter(|&k| k != sought.0);
    let mut seen = others.map(|k| graph.entries(query.start as usize, &(k, sought.1.clone())));
    c.other_kind_reached += usize::from(seen.any(|other| !other.is_empty()));
    let declarations = enumerate::declarations(&entries);
    let rules = Rules::new(gym);
    let by_scopes = Search::new(&rules, query.start, query.name).declarations_seen(2);
    if [usize::from(answers::count(&rules, query)), by_scopes] != [declarations.min(2); 2] {
        fail(seed, &format!("found {n}, as the summary has it"), text);
    }
    c.several += usize::from(declarations > 1);
    c.one_by_more_routes += usize::from(declarations == 1 && entries.len() > 1);
    c.none += usize::from(entries.is_empty());
    if awaits.is_some() {
        c.unsettled += 1;
        let start = query.start as usize;
        for &(scope, e) in &gym.open {
            if graph.decisive(start, &sought, scope as usize, enumerate::end(e)) {
                continue;
            }
            c.completions_at_one_pair += 1;
            if completion(rng, gym, &sought, &[(scope, e)]).entries(start, &sought) != entries {
                fail(seed, &format!("query {n}: open {scope} {e} matters"), text);
            }
        }
        return;
    }
    for _ in 0..3 {
        c.completions += 1;
        let more = completion(rng, gym, &sought, &gym.open);
        if more.entries(query.start as usize, &sought) != entries {
            fail(seed, &format!("query {n} is not settled"), text);
        }
    }
}

/// The readers of each declaration, in a buffer longer than they are, one of their length and one
/// that is too short; and a place past the declarations.
fn check_readers(seed: usize, text: &[u8], gym: &Gym, c: &mut Counts) {
    let equal = without_turns(gym);
    let all = |g: &Gym| -> Vec<Vec<u8>> {
        let places = 0..g.declarations.len();
        places.map(|place| enumerate::readers(g, place)).collect()
    };
    let (due, by_labels) = (all(gym), all(&equal));
    for (place, due) in due.iter().enumerate() {
        for room in [due.len() + 3, due.len()] {
            let mut out = vec![b'#'; room];
            if answers::readers(text, place, &mut out) != Ok(due.len())
                || out[..due.len()] != *due
                || out[due.len()..].iter().any(|&b| b != b'#')
            {
                let out = String::from_utf8_lossy(&out);
                fail(seed, &format!("readers of {place}: {out}"), text);
            }
        }
        let mut short = vec![b'#'; due.len() - 1];
        if answers::readers(text, place, &mut short) != Err(9) || short.iter().any(|&b| b != b'#') {
            fail(seed, "readers in a short buffer", text);
        }
        let count = due.iter().filter(|&&b| b == b'\n').count() - 1;
        c.readers += 1;
        c.read_by_nobody += usize::from(count == 0);
        c.read_by_all += usize::from(count == gym.scopes as usize);
    }
    let named = |i: usize| gym.declarations[i].name;
    let apart = |i: usize, j: usize| named(i) == named(j) && due[i] != due[j];
    c.other_readers_by_turns += usize::from(due != by_labels);
    c.other_readers_of_the_name += usize::from((1..due.len()).any(|i| apart(i - 1, i)));
    let past = gym.declarations.len();
    if [past, past + 1, 99_999]
        .iter()
        .any(|&p| answers::readers(text, p, &mut []) != Err(11))
    {
        fail(seed, "a place past the declarations", text);
    }
}

/// The number of lawful beginnings, and what it is at most.
fn check_beginnings(seed: usize, text: &[u8], gym: &Gym, n: usize, query: Query, c: &mut Counts) {
    let (start, sought) = (query.start as usize, name_of(query.name));
    let due = Graph::of(gym).beginnings(start, &sought).len();
    if answers::beginnings(text, n) != Ok(due as u64) {
        fail(seed, &format!("beginnings {n}, due {due}"), text);
    }
    let without_order = Graph::of(&free_order(gym)).beginnings(start, &sought);
    let without_turns = Graph::of(&without_turns(gym)).beginnings(start, &sought);
    c.beginnings += due;
    c.no_beginning += usize::from(due == 0);
    c.fewer_beginnings += usize::from(due < without_order.len());
    c.fewer_beginnings_by_turns += usize::from(due < without_turns.len());
    let occurs = |label| gym.transitions.iter().any(|t| t.label == label);
    let leaving = |s| move |e: &&gym::Edge| e.from == s && occurs(e.label);
    if (0..gym.scopes).all(|s| gym.edges.iter().filter(leaving(s)).count() < 2) {
        c.one_edge_a_scope += 1;
        if due > gym.scopes as usize {
            fail(
                seed,
                &format!("{due} beginnings along one edge a scope"),
                text,
            );
        }
    }
}

fn check_rows(
    seed: usize,
    rng: &mut Rng,
    text: &[u8],
    gym: &Gym,
    n: usize,
    query: Query,
    c: &mut Counts,
) {
    let graph = Graph::of(gym);
    let by_labels = Graph::of(&without_turns(gym));
    let seen: Vec<Vec<u8>> = enumerate::listing(&free_order(gym), query)
        .split(|&b| b == b'\n')
        .skip(3)
        .filter(|line| !line.is_empty())
        .map(<[u8]>::to_vec)
        .collect();
    let mut rows = Vec::new();
    for _ in 0..6 {
        // Reached paths, so that all three verdicts come; else any row.
        if !seen.is_empty() && rng.below(3) > 0 {
            rows.push(rng.pick(&seen).clone());
        } else {
            rows.push(random::path_row(rng, gym.scopes as usize + 1, &gym.labels));
        }
    }
    for row in &rows {
        let parsed = PathRow::parse(row).unwrap_or_else(|| fail(seed, "a row not read", row));
        if parsed.write() != *row {
            fail(seed, "a row not written back", row);
        }
        let due = match path_of(gym, &parsed) {
            None => Verdict::Unreached,
            Some(p) => {
                let (start, mark) = (query.start as usize, u64::from(parsed.mark));
                graph.verdict(start, &name_of(query.name), &p, mark)
            }
        };
        if let Verdict::Shadowed(after) = due {
            c.caught_after[after.min(4)] += 1;
            let p = path_of(gym, &parsed).expect("a path");
            let (start, mark) = (query.start as usize, u64::from(parsed.mark));
            let without = by_labels.verdict(start, &name_of(query.name), &p, mark);
            c.shadowed_by_turns += usize::from(without == Verdict::Visible);
        }
        let mut table = [BLANK; 63];
        let got = answers::judge(text, n, row, &mut table);
        let (same, counter) = match due {
            Verdict::Visible => (Ok(Standing::Visible), &mut c.visible),
            Verdict::Shadowed(after) => (Ok(Standing::Shadowed(after)), &mut c.shadowed),
            Verdict::Unreached => (Ok(Standing::Unreached), &mut c.unreached),
        };
        *counter += 1;
        let steps = parsed.steps.len();
        if got != same
            || table[..steps] != parsed.steps
            || table[steps..].iter().any(|&s| s != BLANK)
        {
            fail(
                seed,
                &format!(
                    "judge {n} {}: {got:?}, due {due:?}",
                    String::from_utf8_lossy(row)
                ),
                text,
            );
        }
        if steps > 0 && answers::judge(text, n, row, &mut table[..steps - 1]) != Err(9) {
            fail(seed, "a short table", text);
        }
    }
    for pair in rows.windows(2) {
        let (a, b) = (
            PathRow::parse(&pair[0]).unwrap(),
            PathRow::parse(&pair[1]).unwrap(),
        );
        let got = path_row::compare(text, &pair[0], &pair[1], &mut [BLANK; 63], &mut [BLANK; 63]);
        if let (Some(p), Some(q)) = (path_of(gym, &a), path_of(gym, &b)) {
            let steps = enumerate::agree(&p, &q);
            c.agree_in[steps.min(4)] += 1;
            let due = match (graph.more_specific(&p, &q), graph.more_specific(&q, &p)) {
                (true, false) => Compared::First(steps),
                (false, true) => Compared::Second(steps),
                _ => Compared::Neither(steps),
            };
            let decided = due != Compared::Neither(steps);
            c.more_specific += usize::from(decided);
            let neither = !by_labels.more_specific(&p, &q) && !by_labels.more_specific(&q, &p);
            c.more_specific_by_turns += usize::from(decided && neither);
            if got != Ok(due) {
                fail(seed, "compare", text);
            }
        }
        let broken = random::damaged_row(rng, &pair[0]);
        match PathRow::parse(&broken) {
            Some(row) if row.write() != broken => {
                fail(seed, "a damaged row not written back", &broken)
            }
            Some(_) => {}
            None => c.rows_refused += 1,
        }
    }
}

/// The same gym without its order and its turns, in which every reached path is visible.
fn free_order(gym: &Gym) -> Gym {
    Gym {
        order: Vec::new(),
        open: Vec::new(),
        ..without_turns(gym)
    }
}

fn check_inverse(seed: usize, rng: &mut Rng, text: &[u8], c: &mut Counts) {
    let mut table = vec![7; 12_300];
    let cells = match gym::read(text, &mut table) {
        Ok(cells) => cells,
        Err(number) => {
            c.damaged_refused[number as usize] += 1;
            if table.iter().any(|&cell| cell != 7) {
                fail(seed, "a refused text changed the table", text);
            }
            return;
        }
    };
    c.damaged_accepted += 1;
    let mut out = vec![b'#'; text.len()];
    if gym::write(&table[..cells], &mut out) != Ok(text.len()) || out != text {
        fail(seed, "not written back", text);
    }
    if gym::read(text, &mut table[..cells - 1]) != Err(9)
        || gym::write(&table[..cells], &mut out[1..]) != Err(9)
    {
        fail(seed, "9", text);
    }
    let broken = random::damaged_table(rng, &table[..cells]);
    let mut out = vec![b'#'; 33_000];
    match gym::write(&broken, &mut out) {
        Err(number) => c.table_refused[number as usize] += 1,
        Ok(len) => {
            c.table_written += 1;
            if gym::read(&out[..len], &mut table) != Ok(broken.len())
                || table[..broken.len()] != broken
            {
                fail(seed, "a table not read back", &out[..len]);
            }
        }
    }
}

/// The old file's text with the kind `v` in every row that has one.
fn with_kinds(text: &[u8]) -> Vec<u8> {
    let mut section = 0;
    let mut out = Vec::new();
    for line in text.split_inclusive(|&b| b == b'\n') {
        section += usize::from(line[0].is_ascii_lowercase());
        let names: &[u8] = match line {
            b"at name mark\n" => b"at kind name mark\n",
            b"start seek\n" => b"start kind seek\n",
            _ => line,
        };
        match names.iter().position(|&b| b == b' ') {
            Some(space) if names == line && (section == 7 || section == 9) => {
                out.extend([&line[..space], b" v", &line[space..]].concat())
            }
            _ => out.extend(names),
        }
    }
    out
}

/// The text with the edges' line of a file with turns and the turn 0 in each of its rows.
fn with_zeros(text: &[u8]) -> Vec<u8> {
    let mut edges = false;
    let mut out = Vec::new();
    for line in text.split_inclusive(|&b| b == b'\n') {
        if line[0].is_ascii_lowercase() {
            edges = line == b"from label to\n";
            out.extend(if edges { b"from label turn to\n" } else { line });
        } else if edges {
            let space = line.iter().rposition(|&b| b == b' ').expect("three fields");
            out.extend([&line[..space], b" 0", &line[space..]].concat());
        } else {
            out.extend(line);
        }
    }
    out
}

/// What the program prints without the heads' kinds.
fn without_kinds(printed: Vec<u8>) -> String {
    let printed = String::from_utf8(printed).expect("ASCII");
    printed
        .replace("start kind seek", "start seek")
        .replace(" v ", " ")
}

fn converted(convert: fn(&[u8], &mut [u8]) -> Result<usize, u8>, text: &[u8]) -> Vec<u8> {
    let mut out = vec![b'#'; gym::LONGEST];
    let n = convert(text, &mut out).unwrap_or(0);
    out.truncate(n);
    out
}

/// An old file means what the same file with every kind `v` means, and what that means with every
/// turn 0; each converts to the others, but that none gets its turns back.
fn check_forms(seed: usize, text: &[u8]) {
    let kinds = with_kinds(text);
    let zeros = with_zeros(&kinds);
    let mut tables = vec![vec![7; 12_300]; 3];
    for (form, text) in [text, &kinds, &zeros].into_iter().enumerate() {
        let cells = gym::read(text, &mut tables[form]);
        if cells.is_err() || tables[form][0] != form as u64 || tables[form][1..] != tables[0][1..] {
            fail(seed, "other cells in another form", text);
        }
        if without_kinds(answers::program(text)) != without_kinds(answers::program(&kinds)) {
            fail(seed, "other answers in another form", text);
        }
    }
    for (from, old, new) in [
        (text, text, &kinds),
        (&kinds, text, &kinds),
        (&zeros, text, &zeros),
    ] {
        if converted(answers::to_old, from) != old || converted(answers::to_new, from) != *new {
            fail(seed, "conversion", from);
        }
    }
}

/// A file with a turn other than 0 has no old form, and is in the new one.
fn check_turns(seed: usize, text: &[u8], gym: &Gym, c: &mut Counts) {
    let turned = gym.turns.iter().any(|&turn| turn != 0);
    c.only_turns_0 += usize::from(!turned);
    if turned && answers::to_old(text, &mut []) != Err(14) {
        fail(seed, "14", text);
    }
    if converted(answers::to_new, text) != text {
        fail(seed, "not as it was", text);
    }
}

fn check(seed: usize, c: &mut Counts) {
    let mut rng = Rng::new(seed as u64 + 1);
    let text = random::gym(&mut rng, random::SMALL);
    let gym = Gym::parse(&text).unwrap_or_else(|n| fail(seed, &format!("refused {n}"), &text));
    for (n, &query) in gym.queries.iter().enumerate() {
        check_listing(seed, &mut rng, &text, &gym, n, query, c);
        check_beginnings(seed, &text, &gym, n, query, c);
        check_rows(seed, &mut rng, &text, &gym, n, query, c);
        if gym::pack(gym::name_sought(&text, n)) != query.name.text {
            fail(seed, "name sought", &text);
        }
    }
    check_readers(seed, &text, &gym, c);
    match gym.form {
        Form::Old => {
            c.old += 1;
            check_forms(seed, &text)
        }
        Form::Kinds => c.with_kinds += 1,
        Form::Turns => {
            c.with_turns += 1;
            check_turns(seed, &text, &gym, c)
        }
    }
    let past = gym.queries.len();
    if answers::listing(&text, past, &mut []) != Err(7)
        || answers::beginnings(&text, past) != Err(7)
        || !gym::name_sought(&text, past).is_empty()
    {
        fail(seed, "a query number past the queries", &text);
    }
    check_inverse(seed, &mut rng, &text, c);
    for _ in 0..5 {
        let broken = random::damage(&mut rng, &text);
        check_inverse(seed, &mut rng, &broken, c);
    }
}

fn main() {
    let mut args = std::env::args()
        .skip(1)
        .map(|a| a.parse().expect("a number"));
    let count = args.next().unwrap_or(20_000);
    let seed = args.next().unwrap_or(0);
    let mut counts = Counts::default();
    for n in seed..seed + count {
        check(n, &mut counts);
    }
    println!("{count} gyms agree\n{counts:#?}");
    // so many gyms have each kind of query that the count is to be tried on, and of declaration that
    // the readers are
    let met = [
        counts.no_beginning,
        counts.fewer_beginnings,
        counts.fewer_beginnings_by_turns,
        counts.one_edge_a_scope,
        counts.read_by_nobody,
        counts.read_by_all,
        counts.other_readers_by_turns,
        counts.other_readers_of_the_name,
    ];
    assert!(count < 10_000 || met.iter().all(|&n| n > 0), "{met:?}");
}
