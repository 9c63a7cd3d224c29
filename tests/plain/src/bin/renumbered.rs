//! Scopes numbered for storage (02, K13) on random gyms: `renumbered [COUNT [SEED]]`, 20,000 if not
//! said.
//!
//! The list is the breadth-first one by what that is, each query has the same entries under it by the
//! enumerator, and the way back gives the same bytes; so do any list with each scope once and its
//! inverse. A list with a fault is taken exactly if it still has each scope once.

use plain::answers;
use plain::enumerate::{is_breadth_first, same_under};
use plain::gym::{Gym, LONGEST};
use plain::random::{self, Rng};

#[derive(Default, Debug)]
struct Counts {
    as_it_was: usize,
    without_queries: usize,
    with_unmet: usize,
    /// Some edge has another place among the rows that leave its scope by its label.
    edges_sorted: usize,
    lists_taken: usize,
    lists_refused: usize,
}

fn fail(seed: usize, what: &str, text: &[u8]) -> ! {
    let text = String::from_utf8_lossy(text);
    panic!("gym {seed}: {what}\n{text}")
}

fn scopes_of(was: &[u8]) -> Vec<usize> {
    let text = String::from_utf8_lossy(was);
    let lines = text.lines().skip(1);
    lines.map(|line| line.parse().expect("a scope")).collect()
}

fn list_of(scopes: impl Iterator<Item = usize>) -> Vec<u8> {
    let lines = scopes.map(|scope| format!("{scope}\n"));
    format!("was\n{}", lines.collect::<String>()).into_bytes()
}

/// Is the list of the form, with each scope once? Told by writing what it may be.
fn is_good(was: &[u8], scopes: usize) -> bool {
    let text = String::from_utf8_lossy(was);
    let mut list: Vec<usize> = text.lines().skip(1).flat_map(str::parse).collect();
    let same = list_of(list.iter().copied()) == was;
    list.sort();
    same && list.into_iter().eq(0..scopes)
}

fn back(text: &[u8], was: &[u8]) -> Result<Vec<u8>, u8> {
    let mut out = vec![0; LONGEST];
    let n = answers::back(text, was, &mut out)?;
    out.truncate(n);
    Ok(out)
}

/// The file and the list, in buffers of their lengths and of more; in shorter ones neither changes.
fn renumber(seed: usize, text: &[u8]) -> (Vec<u8>, Vec<u8>) {
    let (mut out, mut list) = (vec![b'#'; LONGEST], vec![b'#'; 200]);
    let Ok((n, m)) = answers::renumber(text, &mut out, &mut list) else {
        fail(seed, "refused", text)
    };
    for (room, places) in [
        (n, m),
        (n - 1, m),
        (n, m - 1),
        (n - 1, m - 1),
        (0, m),
        (n, 0),
    ] {
        let (mut file, mut was) = (vec![b'#'; room], vec![b'#'; places]);
        let answer = answers::renumber(text, &mut file, &mut was);
        let kept = file.iter().chain(&was).all(|&b| b == b'#');
        let good = match (room, places) == (n, m) {
            true => answer == Ok((n, m)) && file == out[..n] && was == list[..m],
            false => answer == Err(9) && kept,
        };
        if !good {
            fail(
                seed,
                &format!("{answer:?} in {room} and {places} bytes"),
                text,
            );
        }
    }
    if out[n..].iter().chain(&list[m..]).any(|&b| b != b'#') {
        fail(seed, "a byte behind the output", text);
    }
    out.truncate(n);
    list.truncate(m);
    (out, list)
}

/// Do the edges that leave some scope by some label come in another sequence?
fn are_sorted(old: &Gym, new: &Gym, was: &[usize]) -> bool {
    let tos = |gym: &Gym, from: usize, label: u8| -> Vec<usize> {
        let edges = gym.edges.iter();
        edges
            .filter(|e| (e.from as usize, e.label) == (from, label))
            .map(|e| e.to as usize)
            .collect()
    };
    (0..was.len()).any(|n| {
        (0..old.labels.len() as u8).any(|label| {
            let now: Vec<usize> = tos(new, n, label).iter().map(|&to| was[to]).collect();
            now != tos(old, was[n], label)
        })
    })
}

fn check(seed: usize, c: &mut Counts) {
    let mut rng = Rng::new(13_000_000 + seed as u64);
    let text = random::gym(&mut rng, random::SMALL);
    let gym = Gym::parse(&text).unwrap_or_else(|n| fail(seed, &format!("refused {n}"), &text));
    let (made, list) = renumber(seed, &text);
    let was = scopes_of(&list);
    let new = Gym::parse(&made).unwrap_or_else(|n| fail(seed, &format!("then {n}"), &text));
    if !is_breadth_first(&gym, &was) {
        fail(seed, &format!("the list {was:?}"), &text);
    }
    if !same_under(&was, &gym, &new) {
        fail(seed, &format!("other answers under {was:?}"), &text);
    }
    if back(&made, &list).as_ref() != Ok(&text) {
        fail(seed, "it does not come back", &text);
    }
    c.as_it_was += usize::from(made == text);
    c.without_queries += usize::from(gym.queries.is_empty());
    c.with_unmet += usize::from(
        was.windows(2)
            .any(|s| !gym.edges.iter().any(|e| e.to as usize == s[1])),
    );
    c.edges_sorted += usize::from(are_sorted(&gym, &new, &was));

    // any list, and its inverse
    let scopes = gym.scopes as usize;
    let any = random::was_list(&mut rng, scopes);
    let other = back(&text, &any).unwrap_or_else(|n| fail(seed, &format!("refused {n}"), &text));
    let named = scopes_of(&any);
    let inverse = (0..scopes).map(|s| named.iter().position(|&x| x == s).expect("each once"));
    let inverse = list_of(inverse);
    let parsed = Gym::parse(&other).unwrap_or_else(|n| fail(seed, &format!("then {n}"), &text));
    if back(&other, &inverse).as_ref() != Ok(&text)
        || !same_under(&scopes_of(&inverse), &gym, &parsed)
    {
        fail(seed, &format!("by the list {named:?}"), &text);
    }
    for _ in 0..4 {
        let broken = random::damage(&mut rng, &any);
        let answer = back(&text, &broken);
        let good = is_good(&broken, scopes);
        if answer.is_ok() != good || answer.is_err_and(|number| number != 17) {
            fail(
                seed,
                &format!("the list {:?}", String::from_utf8_lossy(&broken)),
                &text,
            );
        }
        c.lists_taken += usize::from(good);
        c.lists_refused += usize::from(!good);
    }
}

fn main() {
    let mut args = std::env::args()
        .skip(1)
        .map(|a| a.parse().expect("a number"));
    let count = args.next().unwrap_or(20_000);
    let seed = args.next().unwrap_or(0);
    let mut counts = Counts::default();
    for n in seed..seed + count {
        check(n, &mut counts);
    }
    println!("{count} gyms agree\n{counts:#?}");
    let met = [
        counts.as_it_was,
        counts.without_queries,
        counts.with_unmet,
        counts.edges_sorted,
        counts.lists_taken,
        counts.lists_refused,
    ];
    assert!(count < 10_000 || met.iter().all(|&n| n > 0), "{met:?}");
}
