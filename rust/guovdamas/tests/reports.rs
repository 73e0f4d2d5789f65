//! Reports by the library against the reading of document 02's request d, to the last bit: on generated tables with
//! right and wrong owners, damaged ones, such as binding refuses, and at the limits. Seeds are fixed; the counts are
//! printed.

mod both;

use both::{Met, compare_lookups, compare_report, compare_report_all, compare_reports};
use generators::planar::{FAMILIES, sample};
use generators::rng::Rng;
use generators::{Sample, damage, joints, tables};
use lending::LIBRARY;
use reading::bind::{Table, bind};
use reading::graph::Buffers;
use reading::report::ReportLists;
use reading::{MAX_LINKS, Settings};

#[test]
fn any_owners() {
    let mut met = Met::default();
    for seed in 0..20_000 {
        let mut rng = Rng::new(seed ^ 14 << 40);
        let table = tables::sample(6, rng.chance(50), &mut rng);
        let mut owner = tables::owners(&table, rng.choose(&[0, 10, 50, 100]), &mut rng);
        owner.extend((0..rng.below(3)).map(|_| 0));
        compare_reports(&table, &owner, &mut met);
        compare_reports(&table, &owner[..rng.below(owner.len() + 1)], &mut met);
    }
    met.report(
        "any owners",
        &[
            ("found", 20_000),
            ("none", 20_000),
            ("odd areas", 5000),
            ("no area", 1000),
            ("clockwise", 5000),
            ("tables all found", 5000),
            ("tables with some missing", 2000),
            ("tables all missing", 1000),
            ("tables refused", 5000),
            ("short lists", 5000),
            ("tails", 5000),
        ],
    );
}

/// Checks 11 and 12 are not asked: what they refuse is reported whole.
#[test]
fn tables_that_binding_refuses() {
    let mut met = Met::default();
    for seed in 0..20_000 {
        let mut rng = Rng::new(seed ^ 15 << 40);
        let clockwise = rng.chance(50);
        let generate = rng.choose(&[tables::sample, tables::crowded]);
        let table = generate(6, clockwise, &mut rng);
        let refusal = bind(&table, clockwise != rng.chance(50), &mut vec![0; table.contours()]).err();
        let Some(refusal) = refusal else { continue };
        met.count(if refusal.number == 11 { "refused 11" } else { "refused 12" }, true);
        let owner = tables::owners(&table, 0, &mut rng);
        compare_reports(&table, &owner, &mut met);
        let [area, left, bottom, right, top] = [(); 5].map(|()| vec![0.0; table.contours()]);
        let mut lists = ReportLists { area, left, bottom, right, top };
        let reported = (LIBRARY.report_all)(&table, &owner, &mut lists).expect("it is reported");
        assert_eq!((reported.contours as usize, reported.missing), (table.contours(), 0), "{table:?} {owner:?}");
    }
    met.report("tables that binding refuses", &[("refused 11", 2000), ("refused 12", 500), ("found", 10_000)]);
}

#[test]
fn damaged_tables() {
    let mut met = Met::default();
    for seed in 0..30_000 {
        let mut rng = Rng::new(seed ^ 16 << 40);
        let generate = rng.choose(&[tables::sample, tables::crowded]);
        let mut table = generate(6, false, &mut rng);
        let room = damage::table(&mut table, &mut rng);
        let mut owner = tables::owners(&table, rng.choose(&[0, 20]), &mut rng);
        owner.resize(room, 0);
        compare_lookups(&table, &owner);
        compare_reports(&table, &owner, &mut met);
    }
    let least = [("tables refused", 10_000), ("tables all found", 1000), ("tables with some missing", 100)];
    met.report("damaged tables", &least);
}

/// 4,096 points, 1,365 contours, and areas of up to 2^51 doubled.
#[test]
fn full_tables() {
    let mut met = Met::default();
    for seed in 0..120 {
        let mut rng = Rng::new(seed ^ 17 << 40);
        let table = tables::full(&mut rng);
        let contours = table.contours();
        let owner = tables::owners(&table, rng.choose(&[0, 0, 10]), &mut rng);
        let lengths = [(); 5].map(|()| contours + rng.below(3));
        compare_report_all(&table, &owner, lengths, &mut met);
        for contour in [0, contours - 1, contours, rng.below(contours), rng.below(contours)] {
            compare_report(&table, &owner, contour, &mut met);
        }
        met.count("4,096 points", table.points.len() == 2 * MAX_LINKS);
        met.count("1,365 contours", contours == 1365);
        met.count("1 contour", contours == 1);
    }
    met.report(
        "full tables",
        &[
            ("4,096 points", 50),
            ("1,365 contours", 5),
            ("1 contour", 5),
            ("areas of 2^51", 5),
            ("large odd areas", 5),
            ("at a bound", 100),
            ("tables all found", 50),
            ("tables with some missing", 20),
        ],
    );
}

fn extracted(sample: &Sample, settings: Settings) -> Option<Table> {
    let mut lent = Buffers::for_states(sample.state.clone());
    (LIBRARY.extract)(&sample.graph, settings, &mut lent).ok().map(|counts| counts.table(&lent))
}

/// Without their straight points contours have the same reports, by the owners that were bound on all points.
#[test]
fn without_straight_points() {
    let mut met = Met::default();
    for seed in 0..3000 {
        let mut rng = Rng::new(seed ^ 18 << 40);
        let plain = sample(FAMILIES[seed as usize % FAMILIES.len()], 4, &mut rng);
        let jointed = joints::split(&plain, &mut rng);
        let all = Settings { clockwise: rng.chance(50), minimum: rng.choose(&[0, 3]), drop_straight: false };
        let Some(full) = extracted(&jointed, all) else { continue };
        let dropped = extracted(&jointed, Settings { drop_straight: true, ..all }).expect("it is walked as before");
        let mut owner = vec![0; full.contours()];
        if (LIBRARY.bind)(&full, all.clockwise, &mut owner).is_err() {
            continue;
        }
        compare_reports(&full, &owner, &mut met);
        compare_reports(&dropped, &owner, &mut met);
        for contour in 0..full.contours() {
            let [with, without] = [&full, &dropped].map(|table| (LIBRARY.report)(table, &owner, contour));
            assert_eq!(with, without, "{full:?} {contour}");
            assert!(with.is_some(), "{full:?} {contour}");
            met.count("contours with joints", full.len[contour] > dropped.len[contour]);
        }
    }
    met.report("without straight points", &[("contours with joints", 2000), ("found", 5000), ("odd areas", 500)]);
}
