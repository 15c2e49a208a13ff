//! Examples, and reasons against two other ways to find the least: all reasons of small
//! records, by the definitions alone, and shortest distances at the limits.

use super::super::{
    Body, Constraint, Deed, Edit, Record, Rule, Sound, CONSTRAINT_LIMIT, EDIT_LIMIT,
};
use super::{reason, Reason};
use crate::random::layered::layered_record;
use crate::random::Random;

fn record(names: &[u16], constraints: &[Constraint]) -> Record {
    let edit = |&name: &u16| Edit { name, body: Body { place: 5, deed: Deed::Insert } };
    let mut constraints = constraints.to_vec();
    constraints.sort_unstable();
    constraints.dedup();
    Record { edits: names.iter().map(edit).collect(), constraints }
}

/// The reason as it is printed after the edit.
fn printed(record: &Record, name: u16) -> String {
    assert!(Sound::new(record).is_ok());
    let index = record.index(name).expect("the edit is known");
    match reason(record, index) {
        None => "none".to_string(),
        Some(Reason::Must { chain }) => format!("must {chain:?}"),
        Some(Reason::Never { chain, ring }) => format!("never {chain:?} {ring:?}"),
    }
}

const fn not_after(left: u16, right: u16) -> Constraint {
    Constraint { left, rule: Rule::NotAfter, right }
}

const fn enables(left: u16, right: u16) -> Constraint {
    Constraint { left, rule: Rule::Enables, right }
}

mod examples {
    use super::*;

    #[test]
    fn a_ring_that_the_edit_needs() {
        let rows = [not_after(257, 258), not_after(258, 257), enables(257, 259), enables(258, 259)];
        let p6 = record(&[257, 258, 259], &rows);
        assert_eq!(printed(&p6, 259), "never [259, 257] [257, 258]");
        assert_eq!(printed(&p6, 257), "none");
    }

    #[test]
    fn the_text_of_three_edits() {
        let rows = [
            not_after(257, 258),
            not_after(257, 513),
            enables(257, 258),
            enables(257, 513),
            Constraint::noncommuting(258, 513),
            enables(513, 0),
        ];
        let text = record(&[257, 258, 513], &rows);
        assert_eq!(printed(&text, 257), "must [257, 513, 0]");
        assert_eq!(printed(&text, 258), "none");
        assert_eq!(printed(&text, 513), "must [513, 0]");
    }

    #[test]
    fn an_aborted_edit_is_a_ring_alone() {
        assert_eq!(printed(&record(&[257], &[not_after(257, 257)]), 257), "never [257] [257]");
    }

    #[test]
    fn a_chain_from_init_wins_where_it_is_as_short() {
        let ring = [not_after(257, 260), not_after(260, 257)];
        let rows = [ring[0], ring[1], enables(257, 0), enables(260, 259)];
        let needed = record(&[257, 258, 259, 260], &rows);
        assert_eq!(printed(&needed, 259), "never [0, 257] [257, 260]");
        assert_eq!(printed(&needed, 260), "never [260] [260, 257]");
    }

    #[test]
    fn chain_and_ring_count_together_and_the_lower_row_wins() {
        let ring = [not_after(513, 514), not_after(514, 513), enables(514, 513)];
        for (aborted, expected) in
            [(257, "never [513, 257] [257]"), (769, "never [513] [513, 514]")]
        {
            let rows = [&ring[..], &[not_after(aborted, aborted), enables(aborted, 513)]].concat();
            let mut names = [513, 514, aborted];
            names.sort_unstable();
            assert_eq!(printed(&record(&names, &rows), 513), expected);
        }
    }

    #[test]
    fn a_longer_chain_to_a_shorter_ring() {
        let ring = [not_after(257, 258), not_after(258, 259), not_after(259, 257)];
        let needs = [258, 259, 260].map(|name| enables(name, 257));
        let rows = [&ring[..], &needs, &[not_after(260, 260)]].concat();
        assert_eq!(printed(&record(&[257, 258, 259, 260], &rows), 257), "never [257, 260] [260]");
    }

    #[test]
    fn the_lower_of_two_chains() {
        let rows = [enables(257, 258), enables(257, 259), enables(258, 0), enables(259, 0)];
        assert_eq!(printed(&record(&[257, 258, 259], &rows), 257), "must [257, 258, 0]");
    }

    #[test]
    fn a_ring_outside_the_needs_is_no_reason() {
        let rows = [not_after(257, 258), not_after(258, 257), enables(258, 259)];
        let outside = record(&[257, 258, 259], &rows);
        for name in [257, 258, 259] {
            assert_eq!(printed(&outside, name), "none", "{name}");
        }
    }

    #[test]
    fn a_ring_is_written_along_its_arrows() {
        let ring = [not_after(257, 259), not_after(259, 258), not_after(258, 257)];
        let needs = [257, 258, 259].map(|name| enables(name, 260));
        let rows = [&ring[..], &needs].concat();
        let turned = record(&[257, 258, 259, 260], &rows);
        assert_eq!(printed(&turned, 260), "never [260, 257] [257, 259, 258]");
    }
}

/// All reasons that there are, by the definitions: names may stand in them more than
/// once.
mod definitions {
    use super::*;

    /// Links from each name.
    type Links<'record> = Box<dyn Fn(u16) -> Vec<u16> + 'record>;

    fn linked(record: &Record, rule: Rule, turned: bool) -> Links<'_> {
        let rows = record.constraints.iter().filter(move |row| row.rule == rule);
        let ends: Vec<(u16, u16)> = match turned {
            true => rows.map(|row| (row.right, row.left)).collect(),
            false => rows.map(|row| (row.left, row.right)).collect(),
        };
        Box::new(move |name| ends.iter().filter(|end| end.0 == name).map(|end| end.1).collect())
    }

    /// All walks from a name that have so many links.
    fn walks(links: &Links, from: u16, count: usize) -> Vec<Vec<u16>> {
        let mut walks = vec![vec![from]];
        for _ in 0..count {
            let longer = |walk: &Vec<u16>| {
                let ends = links(walk[walk.len() - 1]);
                let walk = walk.clone();
                ends.into_iter().map(move |end| [&walk[..], &[end]].concat())
            };
            walks = walks.iter().flat_map(longer).collect();
        }
        walks
    }

    /// 0, the edit, and all that enables one of them.
    fn needs(record: &Record, name: u16) -> Vec<u16> {
        let mut needs = vec![0, name];
        let needed = |needs: &[u16]| {
            let rows = record.constraints.iter().filter(|row| row.rule == Rule::Enables);
            let new = rows.filter(|row| needs.contains(&row.right) && !needs.contains(&row.left));
            new.map(|row| row.left).next()
        };
        while let Some(more) = needed(&needs) {
            needs.push(more);
        }
        needs
    }

    /// The reasons with so many links.
    fn reasons(record: &Record, name: u16, count: usize) -> Vec<Reason> {
        let enabled = linked(record, Rule::Enables, false);
        let enablers = linked(record, Rule::Enables, true);
        let followers = linked(record, Rule::NotAfter, false);
        let needs = needs(record, name);
        let musts = walks(&enabled, name, count).into_iter().filter(|chain| chain[count] == 0);
        let mut reasons: Vec<Reason> = musts.map(|chain| Reason::Must { chain }).collect();
        for chain_links in 0..count {
            for chain in [0, name].into_iter().flat_map(|from| walks(&enablers, from, chain_links))
            {
                let meet = chain[chain_links];
                for ring in walks(&followers, meet, count - chain_links - 1) {
                    let closed = followers(ring[ring.len() - 1]).contains(&meet);
                    if closed && ring.iter().all(|name| needs.contains(name)) {
                        reasons.push(Reason::Never { chain: chain.clone(), ring });
                    }
                }
            }
        }
        reasons
    }

    fn row(reason: &Reason) -> Vec<u16> {
        match reason {
            Reason::Must { chain } => chain.clone(),
            Reason::Never { chain, ring } => [&chain[..], ring].concat(),
        }
    }

    /// A least reason has no name twice in its chain, INIT's among them, or in its ring;
    /// longer ones are looked at too.
    fn least(record: &Record, name: u16) -> Option<Reason> {
        let longest = 2 * record.edits.len() + 2;
        (1..=longest).find_map(|count| reasons(record, name, count).into_iter().min_by_key(row))
    }

    fn small_record(random: &mut Random) -> Record {
        let count = random.between(1, 6);
        let mut names: Vec<u16> = (257..257 + count as u16).collect();
        if random.one_in(2) {
            // As numbers 1025 comes last, as bytes first.
            names[count - 1] = 1025;
        }
        let share = random.pick(&[2, 4, 6]);
        let mut rows: Vec<Constraint> = Vec::new();
        for _ in 0..random.between(0, 2 * count) {
            let (left, right) = (random.pick(&names), random.pick(&names));
            rows.push(match random.below(8) {
                0 => Constraint::required(left),
                rule if rule < share => enables(left, right),
                _ => not_after(left, right),
            });
        }
        rows.retain(|row| row.is_allowed() && (row.left != row.right || random.one_in(3)));
        record(&names, &rows)
    }

    #[test]
    fn the_reason_is_the_least_of_all_reasons() {
        let mut random = Random::new(1);
        let (mut musts, mut nevers, mut without) = (0, 0, 0);
        for _ in 0..5_000 {
            let record = small_record(&mut random);
            let Ok(sound) = Sound::new(&record) else { continue };
            for (place, edit) in record.edits.iter().enumerate() {
                let given = reason(&record, place + 1);
                assert_eq!(given, least(&record, edit.name), "{} of {record:?}", edit.name);
                let (must, never) = (sound.must(place + 1), sound.never(place + 1));
                match given {
                    Some(Reason::Must { .. }) => assert!(must),
                    Some(Reason::Never { .. }) => assert!(never),
                    None => assert!(!must && !never),
                }
                musts += usize::from(must);
                nevers += usize::from(never);
                without += usize::from(!must && !never);
            }
        }
        assert!(musts > 500 && nevers > 500 && without > 500, "{musts}, {nevers}, {without}");
    }
}

/// Shortest distances between all pairs, and then the lowest step that keeps to them.
mod distances {
    use super::*;

    const FAR: usize = 1000;

    /// Links from each index to others, as a table.
    type Table = Vec<Vec<bool>>;

    fn table(record: &Record, rule: Rule, turned: bool) -> Table {
        let size = record.edits.len() + 1;
        let mut table = vec![vec![false; size]; size];
        for row in record.constraints.iter().filter(|row| row.rule == rule) {
            let (left, right) = (record.index(row.left).unwrap(), record.index(row.right).unwrap());
            let (from, to) = if turned { (right, left) } else { (left, right) };
            table[from][to] = true;
        }
        table
    }

    /// The least number of links between any two, by Floyd and Warshall.
    fn distances(table: &Table) -> Vec<Vec<usize>> {
        let size = table.len();
        let start = |from: usize, to: usize| match table[from][to] {
            _ if from == to => 0,
            true => 1,
            false => FAR,
        };
        let mut distances: Vec<Vec<usize>> =
            (0..size).map(|from| (0..size).map(|to| start(from, to)).collect()).collect();
        for middle in 0..size {
            for from in 0..size {
                for to in 0..size {
                    let over = distances[from][middle] + distances[middle][to];
                    distances[from][to] = distances[from][to].min(over);
                }
            }
        }
        distances
    }

    /// The indexes from one to another along lowest steps that shorten the way.
    fn way(table: &Table, distances: &[Vec<usize>], from: usize, to: usize) -> Vec<usize> {
        let mut way = vec![from];
        while way[way.len() - 1] != to {
            let here = way[way.len() - 1];
            let closer =
                |&next: &usize| table[here][next] && distances[next][to] + 1 == distances[here][to];
            way.push((0..table.len()).find(closer).expect("some step shortens the way"));
        }
        way
    }

    /// The row of a must reason.
    fn must_row(record: &Record, edit: usize) -> Option<Vec<usize>> {
        let enables = table(record, Rule::Enables, false);
        let distances = distances(&enables);
        (distances[edit][0] < FAR).then(|| way(&enables, &distances, edit, 0))
    }

    /// The chain and the ring of a never reason. Of each edit the lowest of its shortest
    /// rings, of each start and edit the lowest of the shortest chains; of all of these
    /// the least.
    fn never_rows(record: &Record, edit: usize) -> Option<(Vec<usize>, Vec<usize>)> {
        let enablers = table(record, Rule::Enables, true);
        let to = distances(&enablers);
        let needed = |other: usize| to[0][other] < FAR || to[edit][other] < FAR;
        let mut followers = table(record, Rule::NotAfter, false);
        for from in 0..followers.len() {
            for to in 0..followers.len() {
                followers[from][to] &= needed(from) && needed(to);
            }
        }
        let around = distances(&followers);
        let ring = |first: usize| {
            let seconds = (0..followers.len()).filter(|&second| followers[first][second]);
            // An aborted edit is its own second, with nothing between.
            let second = seconds.min_by_key(|&second| (around[second][first], second))?;
            (around[second][first] < FAR).then(|| {
                let back = way(&followers, &around, second, first);
                [&[first], &back[..back.len() - 1]].concat()
            })
        };
        let mut found = Vec::new();
        for first in 1..followers.len() {
            let Some(ring) = ring(first) else { continue };
            for start in [0, edit].into_iter().filter(|&start| to[start][first] < FAR) {
                let chain = way(&enablers, &to, start, first);
                found.push((chain, ring.clone()));
            }
        }
        found
            .into_iter()
            .min_by_key(|(chain, ring)| (chain.len() + ring.len(), [&chain[..], ring].concat()))
    }

    fn least(record: &Record, edit: usize) -> Option<Reason> {
        let name = |index: usize| if index == 0 { 0 } else { record.edits[index - 1].name };
        let names = |row: Vec<usize>| row.into_iter().map(name).collect();
        if let Some(chain) = must_row(record, edit) {
            return Some(Reason::Must { chain: names(chain) });
        }
        let (chain, ring) = never_rows(record, edit)?;
        Some(Reason::Never { chain: names(chain), ring: names(ring) })
    }

    fn full_record(random: &mut Random) -> Record {
        let mut names: Vec<u16> =
            (1..=8).flat_map(|bench| (1..=40).map(move |at| bench * 256 + at)).collect();
        random.shuffle(&mut names);
        names.truncate(EDIT_LIMIT);
        names.sort_unstable();
        layered_record(record(&names, &[]).edits, random)
    }

    #[test]
    fn at_the_limits_it_is_the_one_by_distances() {
        let mut random = Random::new(2);
        let (mut full, mut long_chains, mut long_rings, mut from_init) = (0, 0, 0, 0);
        for _ in 0..60 {
            let record = full_record(&mut random);
            if Sound::new(&record).is_err() {
                continue;
            }
            full += usize::from(record.constraints.len() == CONSTRAINT_LIMIT);
            for _ in 0..5 {
                let edit = random.between(1, EDIT_LIMIT);
                let given = reason(&record, edit);
                assert_eq!(given, least(&record, edit), "{edit} of {record:?}");
                match given {
                    Some(Reason::Must { chain }) => long_chains += usize::from(chain.len() > 20),
                    Some(Reason::Never { chain, ring }) => {
                        long_chains += usize::from(chain.len() > 20);
                        long_rings += usize::from(ring.len() > 20);
                        from_init += usize::from(chain[0] == 0);
                    }
                    None => {}
                }
            }
        }
        let counts = [full, long_chains, long_rings, from_init];
        assert!(counts.iter().all(|&count| count > 1), "{counts:?}");
    }
}
