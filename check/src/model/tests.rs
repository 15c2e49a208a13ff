//! Document 01's specimens, examples and limits, and its definitions taken
//! literally on small records.

use super::text::{place_into, read, shelf, write_report, write_text};
use super::*;
use crate::random::Random;

fn insert(name: u16, place: u8) -> Edit {
    Edit { name, body: Body { place, deed: Deed::Insert } }
}

fn set(name: u16, place: u8, field: Field, value: u32) -> Edit {
    Edit { name, body: Body { place, deed: Deed::Set { field, value } } }
}

fn remove(name: u16, place: u8) -> Edit {
    Edit { name, body: Body { place, deed: Deed::Remove } }
}

/// Inserts of these names at place 5, and constraints in any order.
fn record(names: &[u16], constraints: &[Constraint]) -> Record {
    let mut constraints = constraints.to_vec();
    constraints.sort_unstable();
    Record { edits: names.iter().map(|&name| insert(name, 5)).collect(), constraints }
}

fn tables(names: &[u16], constraints: &[Constraint]) -> Tables {
    Tables::from(&record(names, constraints))
}

fn bench(names: &[u16], constraints: &[Constraint]) -> Bench {
    let mut bench = Bench::default();
    bench.merge(&tables(names, constraints)).unwrap();
    bench
}

fn pages(bench: &Bench) -> Vec<u16> {
    bench.book().schedule().iter().map(|edit| edit.name).collect()
}

fn report(record: &Record) -> String {
    let mut output = Vec::new();
    write_text(record, &mut output);
    String::from_utf8(shelf(&output).0).unwrap()
}

fn printed(text: &str) -> String {
    String::from_utf8(shelf(text.as_bytes()).0).unwrap()
}

fn not_after(left: u16, right: u16) -> Constraint {
    Constraint::not_after(left, right)
}

fn enables(left: u16, right: u16) -> Constraint {
    Constraint::enables(left, right)
}

fn both_ways(one: u16, other: u16) -> [Constraint; 2] {
    [not_after(one, other), not_after(other, one)]
}

mod specimens {
    use super::*;

    /// The report has the counts and, to each name, this.
    fn assert_judged(names: &[u16], rows: &[Constraint], judged: &[&str]) {
        let counts = format!("edits={} rules={}\n", names.len(), rows.len());
        let lines = names.iter().zip(judged).map(|(name, said)| format!("edit={name} {said}\n"));
        assert_eq!(report(&record(names, rows)), counts + &lines.collect::<String>());
    }

    #[test]
    fn p1_the_empty_record() {
        assert_eq!(printed(""), "edits=0 rules=0\n");
        assert!(pages(&bench(&[], &[])).is_empty());
        assert!(is_sound_schedule(&Record::default(), &[0]));
    }

    #[test]
    fn p2_aborted() {
        let rows = [Constraint::aborted(257)];
        assert_judged(&[257], &rows, &["must=no never=yes settled=yes place=0"]);
    }

    #[test]
    fn p3_notafter_each_other() {
        let judged = ["must=no never=no settled=no place=1", "must=no never=no settled=no place=0"];
        assert_judged(&[257, 258], &both_ways(257, 258), &judged);
    }

    #[test]
    fn p4_one_of_them_required() {
        let [there, back] = both_ways(257, 258);
        let rows = [there, back, Constraint::required(258)];
        let judged =
            ["must=no never=yes settled=yes place=0", "must=yes never=no settled=yes place=1"];
        assert_judged(&[257, 258], &rows, &judged);
    }

    #[test]
    fn p5_both_required() {
        let [there, back] = both_ways(257, 258);
        let rows = [there, back, Constraint::required(257), Constraint::required(258)];
        assert_eq!(report(&record(&[257, 258], &rows)), "refused=8 line=6\n");
        assert_eq!(Bench::default().merge(&tables(&[257, 258], &rows)), Err(Ground::Unsound));
    }

    #[test]
    fn p6_never_without_being_in_a_ring() {
        let [there, back] = both_ways(257, 258);
        let rows = [there, back, enables(257, 259), enables(258, 259)];
        let judged = [
            "must=no never=no settled=no place=1",
            "must=no never=no settled=no place=0",
            "must=no never=yes settled=yes place=0",
        ];
        assert_judged(&[257, 258, 259], &rows, &judged);
    }

    #[test]
    fn p7_a_ring_of_three() {
        let rows = [not_after(257, 258), not_after(258, 259), not_after(259, 257)];
        assert_eq!(pages(&bench(&[257, 258, 259], &rows)), [257, 258]);
    }

    #[test]
    fn p8_hiding() {
        let mut hiding = bench(&[257, 258], &[enables(257, 258)]);
        assert_eq!(hiding.hide(258), Ok(Pages { undone: 1, redone: 0 }));
        assert_eq!(pages(&hiding), [257]);
        let mut hiding = bench(&[257, 258], &[enables(257, 258)]);
        assert_eq!(hiding.hide(257), Ok(Pages { undone: 2, redone: 0 }));
        assert!(pages(&hiding).is_empty());
    }

    #[test]
    fn p9_weights() {
        let decided = |place| {
            let edits = vec![insert(257, place)];
            Tables::from(&Record { edits, constraints: vec![Constraint::required(257)] })
        };
        let mut proposals: [Tables; BENCHES] = Default::default();
        proposals[..3].clone_from_slice(&[decided(1), decided(2), decided(3)]);
        let roll = [(1, 3), (2, 2), (3, 1)].map(|(bench, weight)| RollRow { bench, weight });
        let open = election(&proposals, &roll, 257).unwrap();
        assert_eq!(open, Election { won: None, greatest: 3, silent: 0, total: 6 });
        proposals[2] = decided(1);
        let won = election(&proposals, &roll, 257).unwrap();
        assert_eq!((won.greatest, won.silent, won.total), (4, 0, 6));
        assert_eq!(won.won.map(|bundle| bundle.edits), Some(vec![insert(257, 1)]));
    }

    #[test]
    fn p10_turns() {
        let mut bench = bench(&[257, 258, 259], &[]);
        assert_eq!((bench.book().open_page(), bench.book().last_page()), (3, 3));
        assert_eq!(bench.turn(1), Err(Ground::Turn));
        assert_eq!(bench.turn(-4), Err(Ground::Turn));
        assert_eq!(bench.turn(i32::MIN), Err(Ground::Turn));
        assert_eq!(bench.turn(i32::MAX), Err(Ground::Turn));
        assert_eq!(bench.book().open_page(), 3);
        assert_eq!(bench.turn(-3), Ok(()));
        assert_eq!((bench.book().open_page(), bench.book().last_page()), (0, 3));
        assert_eq!(bench.turn(0), Ok(()));
    }

    #[test]
    fn the_text_of_three_edits() {
        let text = "edit=257 do=insert chip=5\n\
                    edit=258 do=set chip=5 field=size value=8192\n\
                    edit=513 do=set chip=5 field=size value=16384\n\
                    left=257 rule=notafter right=258\n\
                    left=257 rule=notafter right=513\n\
                    left=257 rule=enables right=258\n\
                    left=257 rule=enables right=513\n\
                    left=258 rule=noncommuting right=513\n\
                    left=513 rule=enables right=0\n";
        let report = "edits=3 rules=6\n\
                      edit=257 must=yes never=no settled=yes place=1\n\
                      edit=258 must=no never=no settled=no place=2\n\
                      edit=513 must=yes never=no settled=no place=3\n";
        assert_eq!(printed(text), report);
        let mut written = Vec::new();
        write_text(&read(text.as_bytes()).unwrap(), &mut written);
        assert_eq!(written, text.as_bytes());
    }
}

/// The examples of the table "What is turned away", by number.
mod examples {
    use super::*;

    #[test]
    fn number_1_and_2() {
        assert_eq!(printed("edit=257\n"), "refused=1 line=1\n");
        assert_eq!(printed("edit=256 do=insert chip=1\n"), "refused=2 line=1\n");
        assert_eq!(Bench::default().add_edit(insert(256, 1).into()), Err(Ground::Range));
    }

    #[test]
    fn number_3_and_the_limit_of_edits() {
        let mut bench = Bench::default();
        for sequence in 1..=127 {
            assert!(bench.add_edit(insert(256 + sequence, 5).into()).is_ok());
        }
        assert_eq!(bench.add_edit(insert(384, 5).into()), Err(Ground::NoPlace));
        assert_eq!(bench.add_edit(insert(383, 6).into()), Err(Ground::OtherBody));
        assert!(bench.add_edit(insert(383, 5).into()).is_ok());
        assert_eq!(bench.book().last_page(), 127);
    }

    #[test]
    fn number_4() {
        let mut bench = bench(&[257], &[]);
        assert_eq!(bench.add_edit(insert(257, 6).into()), Err(Ground::OtherBody));
    }

    #[test]
    fn number_5() {
        assert_eq!(bench(&[257], &[]).hide(300), Err(Ground::Unknown));
        assert_eq!(bench(&[257], &[]).show(300), Err(Ground::Unknown));
    }

    #[test]
    fn number_6() {
        let mut bench = bench(&[257, 258], &[]);
        let refused = [
            not_after(0, 257),
            not_after(257, 0),
            not_after(0, 0),
            enables(0, 257),
            enables(0, 0),
            enables(257, 257),
            Constraint { left: 0, rule: Rule::Noncommuting, right: 257 },
            Constraint { left: 257, rule: Rule::Noncommuting, right: 257 },
            Constraint { left: 258, rule: Rule::Noncommuting, right: 257 },
        ];
        for constraint in refused {
            let answer = bench.add_constraint(constraint.into());
            assert_eq!(answer, Err(Ground::Pair), "{constraint:?}");
        }
        assert!(bench.add_constraint(Constraint::noncommuting(258, 257).into()).is_ok());
    }

    #[test]
    fn number_7() {
        let mut bench = bench(&[257, 258], &[Constraint::aborted(257)]);
        for name in [257, 258] {
            for decision in [Constraint::aborted(name), Constraint::required(name)] {
                assert_eq!(bench.add_constraint(decision.into()), Err(Ground::Decision));
            }
        }
    }

    #[test]
    fn number_8() {
        let required = [Constraint::required(257), Constraint::required(258)];
        let mut bench = bench(&[257, 258], &required);
        assert!(bench.add_constraint(not_after(257, 258).into()).is_ok());
        assert_eq!(bench.add_constraint(not_after(258, 257).into()), Err(Ground::Unsound));
        assert!(!bench.record().has(not_after(258, 257)));
    }

    #[test]
    fn number_9() {
        let mut bench = bench(&[257, 258], &[Constraint::required(258)]);
        assert_eq!(bench.hide(258), Err(Ground::Hiding));
        assert!(bench.hide(257).is_ok());
        assert_eq!(bench.hide(257), Err(Ground::Hiding));
        assert!(bench.show(257).is_ok());
        assert_eq!(bench.show(257), Err(Ground::Hiding));
        assert_eq!(bench.hide(0), Err(Ground::Range));
        assert_eq!(bench.show(0), Err(Ground::Range));
    }

    #[test]
    fn number_10() {
        assert_eq!(Bench::default().turn(-1), Err(Ground::Turn));
    }

    #[test]
    fn number_11() {
        let old = tables(&[257], &[Constraint::required(257)]);
        let kept = propose(&tables(&[257, 258], &[]), &old, ROOM).unwrap();
        assert!(kept.has(Constraint::required(258)));
        let from = tables(&[257, 258], &[not_after(258, 257)]);
        assert_eq!(propose(&from, &old, ROOM), Err(Ground::NotKept));
    }

    #[test]
    fn number_12() {
        let mut bytes = Vec::new();
        let empty = Record::default();
        write_report(&empty, &Sound::new(&empty).unwrap(), &mut bytes);
        let mut output = [7; 3];
        assert_eq!(place_into(&mut output, 0, &bytes), Err(Ground::TooShort));
        assert_eq!(place_into(&mut output, 4, b""), Err(Ground::TooShort));
        assert_eq!(output, [7; 3]);
        assert_eq!(place_into(&mut output, 3, b""), Ok(3));
        assert_eq!(place_into(&mut output, 1, b"ab"), Ok(3));
        assert_eq!(&output, b"\x07ab");
        let room = |edits, constraints| Room { edits, constraints };
        let made = |room| propose(&tables(&[257], &[]), &Tables::default(), room);
        assert!(made(room(1, 1)).is_ok());
        assert_eq!(made(room(0, 1)), Err(Ground::TooShort));
        assert_eq!(made(room(1, 0)), Err(Ground::TooShort));
    }

    #[test]
    fn number_13() {
        let mut rows = tables(&[257, 258], &[]);
        rows.edits.swap(0, 1);
        assert_eq!(Bench::default().merge(&rows), Err(Ground::Order));
        let text = "edit=258 do=insert chip=1\nedit=257 do=insert chip=1\n";
        assert_eq!(printed(text), "refused=13 line=2\n");
    }

    #[test]
    fn number_14() {
        let mut proposals: [Tables; BENCHES] = Default::default();
        proposals[7] = tables(&[257], &[]);
        let refused = |benches: &[u8]| {
            let row = |&bench| RollRow { bench, weight: 1 };
            let roll: Vec<RollRow> = benches.iter().map(row).collect();
            election(&proposals, &roll, 257).err()
        };
        assert_eq!(refused(&[3, 3]), Some(Ground::Roll));
        assert_eq!(refused(&[0]), Some(Ground::Roll));
        assert_eq!(refused(&[9]), Some(Ground::Roll));
        assert_eq!(refused(&[1, 2, 3, 4, 5, 6, 7, 8, 1]), Some(Ground::Roll));
        assert_eq!(refused(&[8, 7, 6, 5, 4, 3, 2, 1]), None);
        assert_eq!(refused(&[]), None);
    }
}

const ROOM: Room = Room { edits: EDIT_LIMIT, constraints: CONSTRAINT_LIMIT };

mod limits {
    use super::*;

    /// Pairs of notafter in order: `count` constraints over 40 edits.
    fn many_constraints(count: usize) -> Tables {
        let names: Vec<u16> = (257..297).collect();
        let pair = |left: u16| (left + 1..297).map(move |right| not_after(left, right));
        let constraints: Vec<Constraint> = (257..297).flat_map(pair).take(count).collect();
        tables(&names, &constraints)
    }

    #[test]
    fn constraints() {
        let mut bench = Bench::default();
        assert_eq!(bench.merge(&many_constraints(513)), Err(Ground::NoPlace));
        assert!(bench.merge(&many_constraints(512)).is_ok());
        assert_eq!(bench.add_constraint(enables(257, 258).into()), Err(Ground::NoPlace));
        // 3 is lower than the 6 and 7 that hold as well; a row that is there needs
        // no place, and 2 is lower still.
        assert_eq!(bench.add_constraint(not_after(0, 257).into()), Err(Ground::NoPlace));
        assert_eq!(bench.add_constraint(enables(257, 0).into()), Err(Ground::NoPlace));
        assert_eq!(bench.add_constraint(not_after(257, 258).into()).map(|_| ()), Ok(()));
        assert_eq!(bench.add_constraint(not_after(257, 256).into()), Err(Ground::Range));
    }

    #[test]
    fn names() {
        let mut bench = Bench::default();
        assert!(bench.add_edit(insert(2303, 63).into()).is_ok());
        for name in [0, 1, 255, 256, 512, 768, 2048, 2304, 65_535] {
            assert_eq!(bench.add_edit(insert(name, 5).into()), Err(Ground::Range), "{name}");
        }
        let far = EditRow { name: 65_536 + 257, kind: 0, place: 0, field: 0, value: 0 };
        assert_eq!(bench.add_edit(far), Err(Ground::Range));
        assert_eq!(bench.add_edit(insert(257, 64).into()), Err(Ground::Range));
    }

    #[test]
    fn columns_that_are_not_used_are_0() {
        let row = |kind, field, value| EditRow { name: 257, kind, place: 0, field, value };
        let fits = |kind, field, value| row(kind, field, value).edit().is_ok();
        assert!(fits(0, 0, 0) && fits(2, 0, 0) && fits(1, 3, u32::MAX));
        assert!(!fits(0, 1, 0) && !fits(0, 0, 1) && !fits(2, 1, 0) && !fits(2, 0, 1));
        assert!(!fits(1, 4, 0) && !fits(3, 0, 0));
    }

    #[test]
    fn a_zero_total_stays_open() {
        let mut proposals: [Tables; BENCHES] = Default::default();
        proposals[0] = tables(&[257], &[Constraint::required(257)]);
        let roll = [RollRow { bench: 1, weight: 0 }];
        let open = Election { won: None, greatest: 0, silent: 0, total: 0 };
        assert_eq!(election(&proposals, &roll, 257), Ok(open.clone()));
        assert_eq!(election(&proposals, &[], 257), Ok(open));
    }

    #[test]
    fn exactly_half_stays_open() {
        let mut proposals: [Tables; BENCHES] = Default::default();
        proposals[0] = tables(&[257], &[Constraint::required(257)]);
        let roll = [1, 2].map(|bench| RollRow { bench, weight: 65_535 });
        let answer = election(&proposals, &roll, 257).unwrap();
        assert_eq!(answer.won, None);
        assert_eq!((answer.greatest, answer.silent, answer.total), (65_535, 65_535, 131_070));
    }
}

mod rows {
    use super::*;

    #[test]
    fn a_repeated_name_is_13_and_not_4() {
        let mut bench = bench(&[258], &[]);
        let repeated = [insert(258, 5), insert(258, 6)].map(EditRow::from);
        let rows = Tables { edits: repeated.to_vec(), ..Tables::default() };
        assert_eq!(bench.merge(&rows), Err(Ground::Order));
        // Out of order, not repeated, known with another body: 4 is lower.
        let out_of_order = [insert(259, 5), insert(258, 6)].map(EditRow::from);
        let rows = Tables { edits: out_of_order.to_vec(), ..Tables::default() };
        assert_eq!(bench.merge(&rows), Err(Ground::OtherBody));
    }

    #[test]
    fn on_a_full_record_a_new_row_is_3_even_out_of_order() {
        let names: Vec<u16> = (257..=383).collect();
        let mut bench = bench(&names, &[]);
        let merged = |bench: &mut Bench, edits: &[Edit]| {
            let edits = edits.iter().map(|&edit| edit.into()).collect();
            bench.merge(&Tables { edits, ..Tables::default() }).err()
        };
        assert_eq!(merged(&mut bench, &[insert(383, 5), insert(258, 5)]), Some(Ground::Order));
        assert_eq!(merged(&mut bench, &[insert(600, 5), insert(258, 5)]), Some(Ground::NoPlace));
        assert_eq!(merged(&mut bench, &[insert(258, 5), insert(258, 5)]), Some(Ground::Order));
        assert_eq!(merged(&mut bench, &[insert(258, 5), insert(259, 5)]), None);
    }

    #[test]
    fn constraints_know_only_their_own_edits() {
        let mut bench = bench(&[257, 258], &[]);
        let rows = tables(&[257], &[not_after(257, 258)]);
        assert_eq!(bench.merge(&rows), Err(Ground::Unknown));
    }

    #[test]
    fn lines_of_a_text() {
        let edit = "edit=257 do=insert chip=1\n";
        let cases = [
            ("", "\n", 1),
            ("", "edit=257 do=insert chip=1", 1),
            ("", "edit=0257 do=insert chip=1\n", 1),
            ("", "edit=257  do=insert chip=1\n", 1),
            ("", "edit=257 do=set chip=1 field=kind value=1\n", 1),
            ("", "edit=257 do=set chip=1 field=id value=4294967296\n", 2),
            (edit, "left=257 rule=notafter right=258\n", 5),
            (edit, "left=0 rule=notafter right=257\n", 6),
            (edit, "edit=257 do=insert chip=2\n", 13),
        ];
        for (before, line, number) in cases {
            let at = before.lines().count() + 1;
            let text = format!("{before}{line}");
            assert_eq!(printed(&text), format!("refused={number} line={at}\n"), "{text}");
        }
        let late = format!("{edit}left=257 rule=enables right=0\nedit=258 do=insert chip=1\n");
        assert_eq!(printed(&late), "refused=13 line=3\n");
        let late = format!("{edit}left=257 rule=enables right=0\nedit=256 do=insert chip=1\n");
        assert_eq!(printed(&late), "refused=2 line=3\n");
    }
}

mod changes {
    use super::*;

    #[test]
    fn undoing_a_remove_brings_back_the_cells() {
        let mut bench = Bench::default();
        for edit in [insert(257, 5), set(258, 5, Field::Size, 8192), remove(259, 5)] {
            bench.add_edit(edit.into()).unwrap();
        }
        assert_eq!(bench.book().catalogue(), &Catalogue::default());
        bench.turn(-1).unwrap();
        let entry = Entry { present: true, cells: [None, Some(8192), None, None] };
        assert_eq!(bench.book().catalogue().entries[5], entry);
    }

    #[test]
    fn a_change_counts_from_the_open_page() {
        let mut bench = bench(&[258, 259, 260], &[]);
        bench.turn(-1).unwrap();
        let pages = bench.add_edit(insert(257, 5).into());
        assert_eq!(pages, Ok(Pages { undone: 2, redone: 4 }));
        bench.turn(-2).unwrap();
        assert_eq!(bench.merge(&Tables::default()), Ok(Pages { undone: 0, redone: 2 }));
        assert_eq!(bench.book().open_page(), 4);
    }

    #[test]
    fn a_hidden_edit_that_must_stand_stands() {
        let mut bench = bench(&[257, 258], &[enables(257, 258)]);
        bench.hide(257).unwrap();
        assert!(pages(&bench).is_empty());
        bench.merge(&tables(&[257], &[Constraint::required(257)])).unwrap();
        assert_eq!(pages(&bench), [257, 258]);
        assert!(bench.hidden().contains(&257));
        assert_eq!(bench.hide(257), Err(Ground::Hiding));
        assert!(bench.show(257).is_ok());
    }

    #[test]
    fn an_adoption_refused_changes_nothing() {
        let mut proposals: [Tables; BENCHES] = Default::default();
        proposals[0] = tables(&[257], &[Constraint::aborted(257)]);
        let roll = [RollRow { bench: 1, weight: 1 }];
        let mut bench = bench(&[257], &[Constraint::required(257)]);
        assert_eq!(bench.adopt(&proposals, &roll, 257), Err(Ground::Unsound));
        assert_eq!(pages(&bench), [257]);
        // With an open election the open page stays.
        bench.turn(-1).unwrap();
        let (election, pages) = bench.adopt(&proposals, &[], 257).unwrap();
        assert_eq!((election.won, pages), (None, Pages::default()));
        assert_eq!(bench.book().open_page(), 0);
    }
}

mod proposals {
    use super::*;

    #[test]
    fn bundles_do_not_follow_what_is_required() {
        let rows = [Constraint::required(257), Constraint::required(258), not_after(257, 259)];
        let record = record(&[257, 258, 259], &rows);
        let bundle = Bundles::new(&record).of(3);
        let names: Vec<u16> = bundle.edits.iter().map(|edit| edit.name).collect();
        assert_eq!(names, [257, 259]);
        assert_eq!(bundle.constraints, [rows[2], rows[0]].as_slice());
        assert!(!is_eligible(&bundle));
        assert!(is_eligible(&Bundles::new(&record).of(1)));
    }

    #[test]
    fn a_noncommuting_partner_comes_along_unless_it_is_ordered_behind() {
        let pair = Constraint::noncommuting(257, 258);
        let size = |rows: &[Constraint], edit| {
            Bundles::new(&record(&[257, 258], rows)).of(edit).edits.len()
        };
        assert_eq!((size(&[pair], 1), size(&[pair], 2)), (2, 2));
        let ordered = [pair, not_after(257, 258)];
        assert_eq!((size(&ordered, 1), size(&ordered, 2)), (1, 2));
    }

    #[test]
    fn everything_is_decided_and_ordered() {
        let [there, back] = both_ways(258, 259);
        let rows = [Constraint::noncommuting(257, 258), there, back];
        let made = propose(&tables(&[257, 258, 259], &rows), &Tables::default(), ROOM).unwrap();
        assert!(made.has(Constraint::required(257)) && made.has(Constraint::required(258)));
        assert!(made.has(Constraint::aborted(259)) && made.has(not_after(257, 258)));
        assert_eq!(made.constraints.len(), 7);
    }

    #[test]
    fn what_was_settled_goes_first() {
        let old = tables(&[258], &[Constraint::required(258)]);
        let from = tables(&[257, 258], &[Constraint::noncommuting(257, 258)]);
        let made = propose(&from, &old, ROOM).unwrap();
        assert!(made.has(not_after(258, 257)) && !made.has(not_after(257, 258)));
    }

    /// A record that is almost full of constraints, the edit 257 noncommuting
    /// with all others.
    fn crowded(unsound: bool) -> Tables {
        let names: Vec<u16> = (257..297).collect();
        let partners = (258..297).map(|name| Constraint::noncommuting(257, name));
        let pair = |left: u16| (left + 1..297).map(move |right| enables(left, right));
        let mut rows: Vec<Constraint> =
            partners.chain((258..297).flat_map(pair)).take(509).collect();
        if unsound {
            let [there, back] = both_ways(295, 296);
            rows.splice(500.., [there, back, enables(295, 0), enables(296, 0)]);
            rows.sort_unstable();
            rows.dedup();
        }
        tables(&names, &rows)
    }

    #[test]
    fn lack_of_place_before_the_schedule_goes_ahead_of_8() {
        let old = tables(&[257], &[Constraint::required(257)]);
        assert_eq!(propose(&crowded(false), &old, ROOM), Err(Ground::NoPlace));
        assert_eq!(propose(&crowded(true), &old, ROOM), Err(Ground::NoPlace));
        // Without an old proposal no rows come before the schedule.
        assert_eq!(propose(&crowded(true), &Tables::default(), ROOM), Err(Ground::Unsound));
        assert_eq!(propose(&crowded(false), &Tables::default(), ROOM), Err(Ground::NoPlace));
        // An old proposal that isn't sound is seen first.
        let [there, back] = both_ways(257, 258);
        let rows = [there, back, Constraint::required(257), Constraint::required(258)];
        let unsound = tables(&[257, 258], &rows);
        assert_eq!(propose(&Tables::default(), &unsound, ROOM), Err(Ground::Unsound));
    }

    #[test]
    fn suggestions() {
        let (first, second) = (set(258, 5, Field::Id, 1), set(257, 5, Field::Id, 2));
        let other_field = set(259, 5, Field::Size, 2);
        let (insertion, removal) = (insert(260, 5), remove(261, 5));
        let both = |left, right| vec![not_after(left, right), enables(left, right)];
        let after = |one, other| suggest(one, other, Case::After);
        let concurrent = |one, other| suggest(one, other, Case::Concurrent);
        assert_eq!(after(insertion, first), both(260, 258));
        assert_eq!(after(insertion, removal), both(260, 261));
        assert_eq!(after(removal, insertion), [not_after(261, 260)]);
        assert_eq!(after(first, second), [not_after(258, 257)]);
        assert_eq!(concurrent(first, second), [Constraint::noncommuting(257, 258)]);
        assert_eq!(concurrent(insertion, insert(257, 5)), [Constraint::noncommuting(257, 260)]);
        assert!(after(first, other_field).is_empty() && concurrent(first, other_field).is_empty());
        assert!(after(first, removal).is_empty() && after(first, insertion).is_empty());
        assert!(after(insertion, insert(257, 5)).is_empty());
        assert!(concurrent(insertion, first).is_empty() && concurrent(first, insertion).is_empty());
        assert!(after(insertion, insertion).is_empty());
        assert!(concurrent(insertion, insertion).is_empty());
        assert!(after(insertion, remove(261, 6)).is_empty());
    }

    /// Document 02, A1.
    #[test]
    fn suggestions_for_a_removal_that_crossed() {
        let removal = remove(1025, 5);
        let concurrent = |one, other| suggest(one, other, Case::Concurrent);
        let after = |one, other| suggest(one, other, Case::After);
        // Of either name the other edit may have, lower or higher, and of any field.
        for name in [513, 1793] {
            let sets = Field::ALL.map(|field| set(name, 5, field, 16384));
            let row = [Constraint::noncommuting(name.min(1025), name.max(1025))];
            for other in sets.into_iter().chain([insert(name, 5)]) {
                assert_eq!(concurrent(removal, other), row);
                assert_eq!(concurrent(other, removal), row);
            }
            let second = remove(name, 5);
            assert!(concurrent(removal, second).is_empty() && after(removal, second).is_empty());
            assert!(sets.iter().all(|&set| after(removal, set).is_empty()));
            assert!(sets.iter().all(|&set| after(set, removal).is_empty()));
            assert_eq!(after(removal, insert(name, 5)), [not_after(1025, name)]);
            assert!(concurrent(removal, insert(name, 6)).is_empty());
        }
    }
}

/// The definitions taken literally: all rows of a small record are tried.
mod definitions {
    use super::*;

    fn random_record(random: &mut Random) -> Record {
        let count = random.between(1, 5);
        let names: Vec<u16> = (257..257 + count as u16).collect();
        let mut rows: Vec<Constraint> = Vec::new();
        for _ in 0..random.below(count * 4) {
            let (left, right) = (random.pick(&names), random.pick(&names));
            rows.push(match random.below(8) {
                0 => Constraint::required(left),
                1..=4 => not_after(left, right),
                5 => Constraint::noncommuting(left, right),
                _ => enables(left, right),
            });
        }
        rows.retain(|row| row.is_allowed() && (!row.is_decision() || random.one_in(2)));
        rows.sort_unstable();
        rows.dedup();
        record(&names, &rows)
    }

    /// Every row that starts with 0 and goes on with distinct edits.
    fn rows(names: &[u16]) -> Vec<Vec<u32>> {
        let mut all = vec![vec![0]];
        let mut begin = 0;
        while begin < all.len() {
            for &name in names {
                if !all[begin].contains(&u32::from(name)) {
                    let mut longer = all[begin].clone();
                    longer.push(u32::from(name));
                    all.push(longer);
                }
            }
            begin += 1;
        }
        all
    }

    #[test]
    fn sound_must_never_and_schedules() {
        let mut random = Random::new(1);
        let mut sound_count = 0;
        for _ in 0..3000 {
            let record = random_record(&mut random);
            let names: Vec<u16> = record.edits.iter().map(|edit| edit.name).collect();
            let all = rows(&names);
            let sound_rows: Vec<_> =
                all.iter().filter(|row| is_sound_schedule(&record, row)).collect();
            let Ok(sound) = Sound::new(&record) else {
                assert!(sound_rows.is_empty());
                continue;
            };
            sound_count += 1;
            assert!(!sound_rows.is_empty());
            for (place, &name) in names.iter().enumerate() {
                let stands = |row: &&Vec<u32>| row.contains(&u32::from(name));
                assert_eq!(
                    sound.must(place + 1),
                    sound_rows.iter().copied().all(|row| stands(&row))
                );
                assert_eq!(
                    sound.never(place + 1),
                    !sound_rows.iter().copied().any(|row| stands(&row))
                );
            }
            let schedule = sound.schedule_with_nothing_hidden();
            let name = |index: usize| if index == 0 { 0 } else { u32::from(names[index - 1]) };
            let row: Vec<u32> = schedule.into_iter().map(name).collect();
            assert!(is_sound_schedule(&record, &row));
            // Of all rows with the same edits the schedule is the lowest.
            let mut same = row.clone();
            same.sort_unstable();
            let is_same = |other: &&&Vec<u32>| {
                let mut other = (**other).clone();
                other.sort_unstable();
                other == same
            };
            assert_eq!(sound_rows.iter().filter(is_same).min(), Some(&&row));
        }
        assert!(sound_count > 500);
    }

    #[test]
    fn proposals_are_sound_decided_and_kept() {
        let mut random = Random::new(2);
        for _ in 0..2000 {
            let from = Tables::from(&random_record(&mut random));
            let Ok(made) = propose(&from, &Tables::default(), ROOM) else { continue };
            assert!(Record::lent(&Tables::from(&made)).is_ok());
            let sound = Sound::new(&made).unwrap();
            assert!(sound.settled(&sound.nevers()).into_iter().all(|settled| settled));
            let bundles = Bundles::new(&made);
            assert!((1..=made.edits.len()).all(|edit| is_eligible(&bundles.of(edit))));
            assert!(keeps(&made, &made));
            // Made again from itself, nothing changes.
            assert_eq!(propose(&from, &Tables::from(&made), ROOM), Ok(made));
        }
    }

    #[test]
    fn catalogue_and_journal_are_those_of_running_the_open_pages() {
        let mut random = Random::new(3);
        for _ in 0..200 {
            let mut bench = Bench::default();
            for _ in 0..40 {
                any_call(&mut bench, &mut random);
                let mut catalogue = Catalogue::default();
                let open = &bench.book().schedule()[..bench.book().open_page()];
                let journal: Vec<Entry> =
                    open.iter().map(|edit| catalogue.run(edit.body)).collect();
                assert_eq!(bench.book().catalogue(), &catalogue);
                assert_eq!(bench.book().journal(), journal);
            }
        }
    }

    fn any_call(bench: &mut Bench, random: &mut Random) {
        let name = 257 + random.below(8) as u16;
        let right = 257 + random.below(8) as u16;
        let value = random.odd_number();
        let _ = match random.below(6) {
            0 => bench.add_edit(insert(name, 5).into()),
            1 => bench.add_edit(set(name, 5, random.pick(&Field::ALL), value).into()),
            2 => bench.add_edit(remove(name, 5).into()),
            3 => bench.add_constraint(not_after(name, right).into()),
            4 => bench.hide(name.into()).or_else(|_| bench.show(name.into())),
            _ => bench.turn(random.below(9) as i32 - 4).map(|()| Pages::default()),
        };
    }
}
