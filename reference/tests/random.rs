//! Randomized tests: the runs against pixels in a set, the search against trying every choice, the
//! margin columns against the rows that outer labels take. In about a third of the sheets points
//! share rows. Where a best choice is looked for, half of the times there are ranks.

use std::collections::{HashMap, HashSet};
use std::ops::RangeInclusive;

use reference::pixels::{marked_runs, share_a_pixel};
use reference::random::{
    accepted, distinct_rows_sheet, falling_distinct_rows_sheet, falling_sheet, random_ranks,
    random_sheet, shared_rows_sheet, with_room, Random,
};
use reference::search::{search_best, try_all};
use reference::{
    best_choice, best_count, best_ranked, check_sheet, first_clash, inside_positions, is_preferred,
    make, make_ranked, making_no, margin_columns, plate_bytes, read_plate, run_script,
    several_best, valid, Choice, ClashKind, Desk, Marked, Ranks, Sheet, Verdict, WORKSPACE_NUMBERS,
};

/// The sheet as it is, or on a map with room for every label: one as often as the other.
fn some_with_room(random: &mut Random, sheet: Sheet) -> Sheet {
    if random.below(2) == 0 {
        return sheet;
    }
    Sheet::read(&with_room(&sheet)).unwrap()
}

/// A small random sheet on which labels and leaders often meet.
fn small_dense(random: &mut Random, most_points: u16, side: u16, most_label: u16) -> Sheet {
    let map = (random.between(1, side), random.between(1, side));
    let label = (random.between(1, most_label), random.between(1, most_label));
    let n = random.between(0, most_points);
    let sheet = if random.below(3) == 0 {
        let noise = random.below(side);
        accepted(|| falling_sheet(random, map, label, n, noise))
    } else {
        accepted(|| random_sheet(random, map, label, n))
    };
    some_with_room(random, sheet)
}

/// A small random sheet as in `tied`.
fn small_tied(random: &mut Random, most_points: u16) -> Sheet {
    let n = random.between(2, most_points);
    tied(random, n)
}

/// A random sheet of n points that often has several best choices: columns fall as rows rise, so that
/// labels meet and leaders are seldom in their way, and there is room for every label.
fn tied(random: &mut Random, n: u16) -> Sheet {
    let map = (random.between(4, 4 * n), random.between(n, 2 * n));
    let label = (random.between(2, 8), random.between(2, 4));
    let noise = random.between(1, label.0);
    let sheet = accepted(|| falling_sheet(random, map, label, n, noise));
    Sheet::read(&with_room(&sheet)).unwrap()
}

/// A sheet of up to 32 points with sides and label sides up to these.
fn any_size(random: &mut Random, most_side: u16, most_label: u16) -> Sheet {
    let side = random.between(4, most_side);
    let label = (random.between(1, most_label), random.between(1, most_label));
    let n = random.between(1, 32);
    accepted(|| random_sheet(random, (side, side), label, n))
}

/// Random ranks for a sheet.
fn any_ranks(random: &mut Random, sheet: &Sheet) -> Ranks {
    let list = random_ranks(random, sheet.points().len() as u8);
    Ranks::read(sheet, &list).unwrap()
}

/// Ranks for a sheet: every one 1, as with no list lent, or random ones, one as often as the other.
fn some_ranks(random: &mut Random, sheet: &Sheet) -> Ranks {
    match random.below(2) {
        0 => Ranks::ones(sheet),
        _ => any_ranks(random, sheet),
    }
}

/// The sum of ranks inside, one by one and in document 02's words.
fn sum_inside(sheet: &Sheet, ranks: &Ranks, choice: Choice) -> u16 {
    let mut sum = 0;
    for position in inside_positions(sheet, choice) {
        sum += u16::from(ranks.by_position()[position]);
    }
    sum
}

/// Do two points of the sheet share a row?
fn shares_a_row(sheet: &Sheet) -> bool {
    let rows: HashSet<u16> = sheet.points().iter().map(|point| point.row).collect();
    rows.len() < sheet.points().len()
}

/// An outer label's columns and rows.
struct OuterLabel {
    columns: RangeInclusive<i32>,
    rows: RangeInclusive<i32>,
}

/// The outer label of a point in margin column k, in document 01's words.
fn outer_label(sheet: &Sheet, position: usize, k: u8) -> OuterLabel {
    let r = i32::from(sheet.points()[position].row);
    let (w, h) = (
        i32::from(sheet.label_width()),
        i32::from(sheet.label_height()),
    );
    let k = i32::from(k);
    OuterLabel {
        columns: -(k + 1) * w..=-k * w - 1,
        rows: r..=r + h - 1,
    }
}

/// The pixels that a point marks, one by one and in document 01's words.
fn pixels_of(sheet: &Sheet, choice: Choice, position: usize) -> HashSet<(i32, i32)> {
    let point = sheet.points()[position];
    let (c, r) = (i32::from(point.column), i32::from(point.row));
    let (w, h) = (
        i32::from(sheet.label_width()),
        i32::from(sheet.label_height()),
    );
    let mut pixels = HashSet::new();
    match margin_columns(sheet, choice)[position] {
        None => {
            for column in c..=c + w - 1 {
                for row in r..=r + h - 1 {
                    pixels.insert((column, row));
                }
            }
        }
        Some(k) => {
            for column in -i32::from(k) * w..=c {
                pixels.insert((column, r));
            }
            let label = outer_label(sheet, position, k);
            for column in label.columns {
                for row in label.rows.clone() {
                    pixels.insert((column, row));
                }
            }
        }
    }
    pixels
}

/// Is one of these pixels off the map?
fn one_is_off_the_map(sheet: &Sheet, pixels: &HashSet<(i32, i32)>) -> bool {
    let columns = 0..i32::from(sheet.map_width());
    let rows = 0..i32::from(sheet.map_height());
    pixels
        .iter()
        .any(|(column, row)| !columns.contains(column) || !rows.contains(row))
}

/// The first clash by sets of pixels.
fn clash_by_pixels(sheet: &Sheet, choice: Choice) -> Option<(usize, usize, ClashKind)> {
    let n = sheet.points().len();
    let pixels: Vec<_> = (0..n)
        .map(|position| pixels_of(sheet, choice, position))
        .collect();
    for first in 0..n {
        if choice.contains(first) && one_is_off_the_map(sheet, &pixels[first]) {
            return Some((first, first, ClashKind::Overhang));
        }
        for second in first + 1..n {
            if !pixels[first].is_disjoint(&pixels[second]) {
                let kind = match (choice.contains(first), choice.contains(second)) {
                    (true, true) => ClashKind::Labels,
                    (false, false) => ClashKind::Leaders,
                    _ => ClashKind::LabelAndLeader,
                };
                return Some((first, second, kind));
            }
        }
    }
    None
}

#[test]
fn runs_agree_with_sets_of_pixels() {
    let mut random = Random::new(1);
    let kinds = [
        ClashKind::Labels,
        ClashKind::LabelAndLeader,
        ClashKind::Overhang,
        ClashKind::Leaders,
    ];
    let mut seen = [0; 4];
    for _ in 0..6000 {
        let sheet = small_dense(&mut random, 8, 14, 6);
        let choice = Choice(random.next_number() as u32);
        let clash = first_clash(&sheet, choice);
        assert_eq!(clash, clash_by_pixels(&sheet, choice));
        if let Some((_, _, kind)) = clash {
            seen[kinds.iter().position(|&known| known == kind).unwrap()] += 1;
        }
    }
    // Each kind is named often.
    assert!(seen.iter().all(|&times| times > 200), "{seen:?}");
}

/// A choice as one number: of two choices with the same sum inside the preferred one has the greater
/// number. The first point stands for the most, so the first difference decides.
fn preference(choice: Choice) -> u32 {
    choice.0.reverse_bits()
}

/// The choice with the greatest sum of ranks inside, and of several the preferred one.
fn preferred_of(
    sheet: &Sheet,
    ranks: &Ranks,
    choices: impl Iterator<Item = Choice>,
) -> Option<Choice> {
    choices.max_by_key(|&choice| (sum_inside(sheet, ranks, choice), preference(choice)))
}

#[test]
fn the_preferred_one_of_two_choices_has_the_greater_number() {
    let mut random = Random::new(15);
    for _ in 0..20000 {
        let sheet = small_dense(&mut random, 8, 14, 6);
        let all = (1 << sheet.points().len()) - 1;
        let [one, other] = [(); 2].map(|()| Choice(random.next_number() as u32 & all));
        let greater = preference(one) > preference(other);
        assert_eq!(is_preferred(&sheet, one, other), greater);
    }
}

#[test]
fn the_best_choice_agrees_with_sets_of_pixels_over_all_choices() {
    let mut random = Random::new(2);
    let mut none = 0;
    let mut several = 0;
    let mut by_rank = 0;
    for round in 0..1500 {
        let sheet = match round % 3 {
            0 => small_tied(&mut random, 6),
            _ => small_dense(&mut random, 6, 10, 5),
        };
        let valid = |choice: &Choice| clash_by_pixels(&sheet, *choice).is_none();
        let choices = || (0..1 << sheet.points().len()).map(Choice).filter(valid);
        let unranked = preferred_of(&sheet, &Ranks::ones(&sheet), choices());
        assert_eq!(best_choice(&sheet), unranked);
        let count = unranked.map_or(0, |best| best.0.count_ones());
        assert_eq!(best_count(&sheet), count as usize);
        none += u32::from(unranked.is_none());
        for ranks in [Ranks::ones(&sheet), any_ranks(&mut random, &sheet)] {
            let best = preferred_of(&sheet, &ranks, choices());
            assert_eq!(best_ranked(&sheet, &ranks), best);
            let sum = |choice| sum_inside(&sheet, &ranks, choice);
            let as_good = choices().filter(|&choice| Some(sum(choice)) == best.map(sum));
            let more_than_one = as_good.count() > 1;
            assert_eq!(several_best(&sheet, &ranks), more_than_one);
            several += u32::from(more_than_one);
            by_rank += u32::from(best != unranked);
        }
    }
    // At times there is no valid choice, and often there are several best ones. At times the ranks
    // decide for another choice than the best one without a list.
    assert!(none > 20, "{none}");
    assert!(several > 300, "{several}");
    assert!(by_rank > 80, "{by_rank}");
}

#[test]
fn makings_and_desks_with_ranks_agree_with_sets_of_pixels() {
    let mut random = Random::new(16);
    let mut short_of_the_best = 0;
    for round in 0..600 {
        let sheet = match round % 2 {
            0 => small_tied(&mut random, 6),
            _ => small_dense(&mut random, 6, 10, 5),
        };
        let n = sheet.points().len();
        let list = random_ranks(&mut random, n as u8);
        let ranks = Ranks::read(&sheet, &list).unwrap();
        assert_eq!(ranks.by_position(), &list[1..]);
        let choices = || (0..1 << n).map(Choice);
        let valid = |choice: &Choice| clash_by_pixels(&sheet, *choice).is_none();
        let best = preferred_of(&sheet, &ranks, choices().filter(valid));
        let made = make_ranked(sheet.bytes(), Some(&list), 12 + 8 * n, WORKSPACE_NUMBERS);
        let plate = best.map(|best| plate_bytes(&sheet, best));
        assert_eq!(made, plate.ok_or(61));
        let mut desk = Desk::fresh();
        let loaded = desk.load_ranked(sheet.bytes(), Some(&list), WORKSPACE_NUMBERS);
        let Some(best) = best else {
            assert_eq!((loaded, desk), (61, Desk::fresh()));
            continue;
        };
        let best = sum_inside(&sheet, &ranks, best);
        assert_eq!((loaded, desk.loaded()), (0, Some((n, best))));
        assert_eq!(desk.sheet_and_ranks(), Some((&sheet, &ranks)));
        // Every list that there is.
        for (number, choice) in (1..).zip(choices()) {
            let positions = inside_positions(&sheet, choice);
            let mut list = vec![positions.len() as u8];
            list.extend(positions.iter().map(|&position| position as u8));
            let sum = sum_inside(&sheet, &ranks, choice);
            let verdict = match clash_by_pixels(&sheet, choice) {
                None => Verdict::Valid {
                    sum,
                    shortfall: best - sum,
                },
                Some((first, second, kind)) => Verdict::Clash {
                    first,
                    second,
                    kind,
                },
            };
            assert_eq!(desk.mark(&list), Ok(Marked { number, verdict }));
            short_of_the_best += u32::from(valid(&choice) && sum < best);
        }
    }
    assert!(short_of_the_best > 2000, "{short_of_the_best}");
}

#[test]
fn the_same_rank_for_all_is_as_no_list() {
    let mut random = Random::new(17);
    for _ in 0..500 {
        let sheet = any_size(&mut random, 60, 10);
        let n = sheet.points().len();
        let output = 12 + 8 * n;
        let unranked = make(sheet.bytes(), output, WORKSPACE_NUMBERS);
        for rank in [1, 2, 9] {
            let list = [&[n as u8][..], &vec![rank; n]].concat();
            let ranked = make_ranked(sheet.bytes(), Some(&list), output, WORKSPACE_NUMBERS);
            assert_eq!(ranked, unranked);
            let ranks = Ranks::read(&sheet, &list).unwrap();
            let tied = several_best(&sheet, &Ranks::ones(&sheet));
            assert_eq!(several_best(&sheet, &ranks), tied);
        }
    }
}

#[test]
fn making_and_loading_answer_61_exactly_if_every_choice_clashes() {
    let mut random = Random::new(11);
    let mut none = 0;
    let mut some_in_a_shared_row = 0;
    for _ in 0..2000 {
        let sheet = small_dense(&mut random, 7, 12, 4);
        let bytes = sheet.bytes();
        let every_one_clashes = (0..1 << sheet.points().len())
            .map(Choice)
            .all(|choice| clash_by_pixels(&sheet, choice).is_some());
        let number = if every_one_clashes { 61 } else { 0 };
        assert_eq!(making_no(bytes, 12 + 8 * 7, WORKSPACE_NUMBERS), number);
        let mut desk = Desk::fresh();
        assert_eq!(desk.load(bytes, WORKSPACE_NUMBERS), number);
        assert_eq!(desk.loaded().is_none(), every_one_clashes);
        // Neither the sheet's questions nor a plate's look for a valid choice.
        assert_eq!(check_sheet(bytes), 0);
        if every_one_clashes {
            none += 1;
            assert!(shares_a_row(&sheet));
            for bits in 0..1 << sheet.points().len() {
                assert_eq!(read_plate(&plate_bytes(&sheet, Choice(bits))).number, 44);
            }
        } else {
            some_in_a_shared_row += u32::from(shares_a_row(&sheet));
        }
    }
    // Most sheets with shared rows have a valid choice, and a good many have none.
    assert!(none > 50, "{none}");
    assert!(some_in_a_shared_row > 200, "{some_in_a_shared_row}");
}

#[test]
fn sheets_with_distinct_rows_have_a_valid_choice() {
    let mut random = Random::new(12);
    for round in 0..2000 {
        let map = (random.between(1, 40), random.between(1, 40));
        let label = (random.between(1, 50), random.between(1, 50));
        let n = random.between(0, 32);
        let bytes = if round % 2 == 0 {
            distinct_rows_sheet(&mut random, map, label, n)
        } else {
            let noise = random.below(40);
            falling_distinct_rows_sheet(&mut random, map, label, n, noise)
        };
        let sheet = Sheet::read(&bytes).unwrap();
        assert!(!shares_a_row(&sheet));
        assert_eq!(sheet.points().len(), usize::from(n.min(map.1)));
        assert_eq!(making_no(&bytes, 12 + 8 * 32, WORKSPACE_NUMBERS), 0);
    }
}

#[test]
fn random_sheets_often_share_rows_and_mostly_have_a_valid_choice() {
    let mut random = Random::new(13);
    let mut by_number = HashMap::new();
    let mut sharing = 0;
    let mut sharing_as_planned = 0;
    let rounds = 3000;
    for round in 0..rounds {
        let side = random.between(8, 60);
        let label = (random.between(1, 6), random.between(1, 6));
        let n = random.between(2, 32);
        let bytes = if round % 2 == 0 {
            random_sheet(&mut random, (side, side), label, n)
        } else {
            let noise = random.below(side);
            falling_sheet(&mut random, (side, side), label, n, noise)
        };
        let number = making_no(&bytes, 12 + 8 * 32, WORKSPACE_NUMBERS);
        *by_number.entry(number).or_insert(0) += 1;
        sharing += u32::from(Sheet::read(&bytes).is_ok_and(|sheet| shares_a_row(&sheet)));
        // These always have a valid choice.
        let planned = shared_rows_sheet(&mut random, (side, side), label, n);
        assert_eq!(making_no(&planned, 12 + 8 * 32, WORKSPACE_NUMBERS), 0);
        let planned = Sheet::read(&planned).unwrap();
        assert!(planned.points().len() >= usize::from(n.min(side)));
        sharing_as_planned += u32::from(shares_a_row(&planned));
    }
    let times = |number| by_number.get(&number).copied().unwrap_or(0);
    assert_eq!(times(0) + times(20) + times(61), rounds);
    assert!((rounds / 4..rounds / 2).contains(&sharing), "{sharing}");
    assert!(sharing_as_planned > rounds * 3 / 4, "{sharing_as_planned}");
    assert!((30..rounds / 10).contains(&times(20)), "{by_number:?}");
    assert!((30..sharing / 3).contains(&times(61)), "{by_number:?}");
}

#[test]
fn the_best_choice_agrees_with_marking_every_choice() {
    let mut random = Random::new(3);
    for _ in 0..400 {
        let sheet = small_dense(&mut random, 10, 20, 6);
        let ranks = some_ranks(&mut random, &sheet);
        let choices = (0..1 << sheet.points().len()).map(Choice);
        let valid = choices.filter(|&choice| valid(&sheet, choice));
        let best = preferred_of(&sheet, &ranks, valid);
        assert_eq!(best_ranked(&sheet, &ranks), best);
        assert_eq!(try_all(&sheet, &ranks), best);
        assert_eq!(search_best(&sheet, &ranks), best);
    }
}

#[test]
fn the_search_agrees_with_trying_every_choice() {
    let mut random = Random::new(4);
    let mut several = 0;
    let mut by_rank = 0;
    for round in 0..3000 {
        // Mostly small sheets, and some on which trying every choice takes longer.
        let most_points = if round % 20 == 0 { 17 } else { 12 };
        let sheet = match round % 2 {
            0 => small_tied(&mut random, most_points),
            _ => small_dense(&mut random, most_points, 30, 8),
        };
        for ranks in [Ranks::ones(&sheet), any_ranks(&mut random, &sheet)] {
            let best = search_best(&sheet, &ranks);
            assert_eq!(best, try_all(&sheet, &ranks));
            several += u32::from(several_best(&sheet, &ranks));
            by_rank += u32::from(best != best_choice(&sheet));
        }
    }
    // Many sheets have several best choices, and in many the ranks decide.
    assert!(several > 1200, "{several}");
    assert!(by_rank > 250, "{by_rank}");
}

/// Which labels leave the map and which labels and leaders share a pixel on it, from sets of pixels:
/// it has nothing of the search.
struct Conflicts {
    n: usize,
    /// The points whose labels leave the map.
    overhangs: u32,
    /// By position: the points whose labels the point's label meets.
    labels: Vec<u32>,
    /// By position: the points whose leaders the point's label meets.
    leaders: Vec<u32>,
    /// By position: the points whose leaders the point's leader meets.
    two_leaders: Vec<u32>,
}

impl Conflicts {
    fn of(sheet: &Sheet) -> Conflicts {
        let n = sheet.points().len();
        let everything = Choice(u32::MAX);
        let labels: Vec<_> = (0..n).map(|p| pixels_of(sheet, everything, p)).collect();
        // Alone outside, a point is in margin column 0. In another column it marks more or other
        // pixels left of the map only. These are left out.
        let leaders: Vec<HashSet<(i32, i32)>> = (0..n)
            .map(|p| {
                let mut pixels = pixels_of(sheet, Choice(!(1 << p)), p);
                pixels.retain(|&(column, _)| column >= 0);
                pixels
            })
            .collect();
        let met = |p: usize, own: &[HashSet<(i32, i32)>], others: &[HashSet<(i32, i32)>]| {
            (0..n)
                .filter(|&other| other != p && !own[p].is_disjoint(&others[other]))
                .fold(0, |bits, other| bits | 1 << other)
        };
        let overhangs = (0..n)
            .filter(|&p| one_is_off_the_map(sheet, &labels[p]))
            .fold(0, |bits, p| bits | 1 << p);
        Conflicts {
            n,
            overhangs,
            labels: (0..n).map(|p| met(p, &labels, &labels)).collect(),
            leaders: (0..n).map(|p| met(p, &labels, &leaders)).collect(),
            two_leaders: (0..n).map(|p| met(p, &leaders, &leaders)).collect(),
        }
    }

    /// Does no label leave the map, and do no two of the labels and leaders meet on it, if just
    /// these points are inside?
    fn none_among(&self, inside: u32) -> bool {
        self.overhangs & inside == 0
            && (0..self.n).all(|p| {
                if inside >> p & 1 == 1 {
                    self.labels[p] & inside == 0 && self.leaders[p] & !inside == 0
                } else {
                    self.two_leaders[p] & !inside == 0
                }
            })
    }
}

/// By choice: the sum of ranks inside, of all choices of a sheet.
fn all_sums(ranks: &Ranks) -> Vec<u16> {
    let mut sums = vec![0];
    // The choices with a point inside come after those without it and the points after it.
    for &rank in ranks.by_position() {
        let with: Vec<u16> = sums.iter().map(|sum| sum + u16::from(rank)).collect();
        sums.extend(with);
    }
    sums
}

/// Of the valid choices with the greatest sum the one with the greatest number, or nothing if none is
/// valid: every one is tried. A choice that would be the one so far is marked in full, margin
/// included.
fn best_by(
    sheet: &Sheet,
    conflicts: &Conflicts,
    sums: &[u16],
    number: fn(Choice) -> u32,
) -> Option<Choice> {
    let mut best = None;
    let mut found = None;
    for (choice, &sum) in (0..).map(Choice).zip(sums) {
        let place = Some((sum, number(choice)));
        if place > best
            && conflicts.none_among(choice.0)
            && clash_by_pixels(sheet, choice).is_none()
        {
            best = place;
            found = Some(choice);
        }
    }
    found
}

/// A crowded sheet of n points.
fn crowded(random: &mut Random, n: u16) -> Sheet {
    let map = (random.between(4, 40), random.between(n, 3 * n));
    let label = (random.between(1, 9), random.between(1, 9));
    let sheet = match random.below(3) {
        0 => accepted(|| random_sheet(random, map, label, n)),
        _ => {
            let noise = random.between(1, 3 * label.0);
            accepted(|| falling_sheet(random, map, label, n, noise))
        }
    };
    some_with_room(random, sheet)
}

#[test]
fn the_search_agrees_with_every_choice_up_to_20_points() {
    let mut random = Random::new(8);
    let mut some_inside = 0;
    let mut some_overhang = 0;
    let mut some_in_a_shared_row = 0;
    let mut several = 0;
    let mut last_difference = 0;
    let mut by_rank = 0;
    let mut none = 0;
    for n in 13..=20 {
        for round in 0..150 {
            let sheet = match round % 4 {
                0 => tied(&mut random, n),
                _ => crowded(&mut random, n),
            };
            assert_eq!(sheet.points().len(), usize::from(n));
            let ranks = some_ranks(&mut random, &sheet);
            let sums = all_sums(&ranks);
            let conflicts = Conflicts::of(&sheet);
            let best_by = |number| best_by(&sheet, &conflicts, &sums, number);
            let preferred = best_by(preference);
            assert_eq!(search_best(&sheet, &ranks), preferred);
            assert_eq!(best_ranked(&sheet, &ranks), preferred);
            by_rank += u32::from(preferred != best_choice(&sheet));
            // Another best one is there if the one that is preferred last is another.
            let last = best_by(|choice| !preference(choice));
            assert_eq!(several_best(&sheet, &ranks), preferred != last);
            several += u32::from(preferred != last);
            // The last difference would decide for the greater number as it is.
            let by_last_difference = best_by(|choice| choice.0);
            last_difference += u32::from(preferred != by_last_difference);
            let something_to_do =
                preferred.is_some_and(|best| (2..u32::from(n) - 1).contains(&best.0.count_ones()));
            some_inside += u32::from(something_to_do);
            let overhangs = conflicts.overhangs != 0;
            some_overhang += u32::from(something_to_do && overhangs);
            some_in_a_shared_row += u32::from(something_to_do && shares_a_row(&sheet));
            none += u32::from(preferred.is_none());
        }
    }
    // Most of the sheets leave the search something to do, and many of these have labels that
    // leave the map or points that share a row. Many have several best choices, and in many of these
    // the last difference would decide otherwise. In many the ranks decide. Some have no valid choice.
    assert!(some_inside > 600, "{some_inside}");
    assert!(some_overhang > 200, "{some_overhang}");
    assert!(some_in_a_shared_row > 100, "{some_in_a_shared_row}");
    assert!(several > 300, "{several}");
    assert!(last_difference > 300, "{last_difference}");
    assert!(by_rank > 100, "{by_rank}");
    assert!(none > 50, "{none}");
}

/// The choice with one point put inside and another put outside.
fn exchanged(choice: Choice, inside: usize, outside: usize) -> Choice {
    Choice(choice.0 & !(1 << outside) | 1 << inside)
}

#[test]
fn large_sheets_have_valid_best_choices_that_no_neighbour_beats() {
    let mut random = Random::new(5);
    let mut some_in_a_shared_row = 0;
    for _ in 0..300 {
        let side = random.between(32, 120);
        let label = (random.between(1, 30), random.between(1, 30));
        let sheet = accepted(|| random_sheet(&mut random, (side, side), label, 32));
        let sheet = some_with_room(&mut random, sheet);
        let ranks = some_ranks(&mut random, &sheet);
        let Some(best) = best_ranked(&sheet, &ranks) else {
            assert!(shares_a_row(&sheet));
            continue;
        };
        some_in_a_shared_row += u32::from(shares_a_row(&sheet));
        assert!(valid(&sheet, best));
        // Putting up to two more points inside clashes.
        for a in 0..32 {
            for b in a..32 {
                let more = Choice(best.0 | 1 << a | 1 << b);
                assert!(more == best || !valid(&sheet, more));
            }
        }
        // So does putting a point inside for one of a lesser rank, and for a later one of the same
        // rank, which would be preferred.
        let rank = |position: usize| ranks.by_position()[position];
        for a in (0..32).filter(|&a| !best.contains(a)) {
            for b in (0..32).filter(|&b| best.contains(b)) {
                if rank(a) > rank(b) || rank(a) == rank(b) && a < b {
                    assert!(!valid(&sheet, exchanged(best, a, b)));
                }
            }
        }
        let reading_bytes = plate_bytes(&sheet, best);
        let reading = read_plate(&reading_bytes);
        assert_eq!(reading.number, 0);
        assert_eq!(Choice::of(reading.inside), best);
    }
    assert!(some_in_a_shared_row > 30, "{some_in_a_shared_row}");
}

#[test]
fn outside_points_clash_exactly_if_they_share_a_row() {
    let mut random = Random::new(6);
    let mut clashing = 0;
    for _ in 0..2000 {
        let sheet = any_size(&mut random, 200, 40);
        let choice = Choice(random.next_number() as u32);
        let marked = marked_runs(&sheet, choice);
        for first in 0..marked.len() {
            for second in first + 1..marked.len() {
                if !choice.contains(first) && !choice.contains(second) {
                    let one_row = sheet.points()[first].row == sheet.points()[second].row;
                    assert_eq!(share_a_pixel(&marked[first], &marked[second]), one_row);
                    clashing += u32::from(one_row);
                }
            }
        }
    }
    assert!(clashing > 500, "{clashing}");
}

#[test]
fn plates_with_two_outside_points_of_one_row_exchanged_are_refused() {
    let mut random = Random::new(14);
    let mut exchanged = 0;
    for _ in 0..2000 {
        let sheet = any_size(&mut random, 100, 20);
        let choice = Choice(random.next_number() as u32);
        let mut plate = plate_bytes(&sheet, choice);
        let outside = sheet.points().len() - inside_positions(&sheet, choice).len();
        let pairs = plate.len() - 2 * outside;
        for upper in 1..outside {
            let (a, b) = (pairs + 2 * (upper - 1), pairs + 2 * upper);
            let [first, second] = [a, b].map(|place| sheet.points()[usize::from(plate[place])]);
            if first.row != second.row {
                assert!(first.row > second.row);
                continue;
            }
            assert!(first.column < second.column);
            assert_eq!(plate[b + 1], plate[a + 1] + 1);
            assert_eq!(read_plate(&plate).number, 44);
            plate.swap(a, b);
            assert_eq!(read_plate(&plate).number, 43);
            plate.swap(a, b);
            exchanged += 1;
        }
    }
    assert!(exchanged > 500, "{exchanged}");
}

/// The outer labels under a choice.
fn outer_labels(sheet: &Sheet, choice: Choice) -> Vec<OuterLabel> {
    margin_columns(sheet, choice)
        .into_iter()
        .enumerate()
        .filter_map(|(position, k)| Some(outer_label(sheet, position, k?)))
        .collect()
}

/// The rows that these outer labels take. A leader's row is the lowest row of its outer label, so
/// nothing left of the map is marked in any other row.
fn rows_taken(labels: &[OuterLabel]) -> HashSet<i32> {
    labels.iter().flat_map(|label| label.rows.clone()).collect()
}

#[test]
fn outer_labels_in_one_column_have_a_free_row_between_them() {
    let mut random = Random::new(9);
    let mut in_one_column = 0;
    let mut one_row_apart = 0;
    for _ in 0..2000 {
        let sheet = any_size(&mut random, 200, 40);
        let labels = outer_labels(&sheet, Choice(random.next_number() as u32));
        let taken = rows_taken(&labels);
        for lower in &labels {
            for upper in &labels {
                if lower.columns != upper.columns || lower.rows.start() > upper.rows.start() {
                    continue;
                }
                if lower.rows.start() == upper.rows.start() {
                    // Labels that start in one row are in different columns.
                    assert!(std::ptr::eq(lower, upper));
                    continue;
                }
                let mut between = lower.rows.end() + 1..*upper.rows.start();
                in_one_column += 1;
                one_row_apart += u32::from(between.len() == 1);
                assert!(between.any(|row| !taken.contains(&row)));
            }
        }
    }
    // Two labels are often in one column, and at times with just one row between them.
    assert!(in_one_column > 5000, "{in_one_column}");
    assert!(one_row_apart > 100, "{one_row_apart}");
}

/// By position: the margin columns had from bands. A band is an unbroken stretch of rows that outer
/// labels take, with a free row above and below. The points of a band take the columns 0, 1, 2 and
/// so on from the top down, and from the left in one row. So a point's column is the number of
/// outside points above it to which no free row is crossed, and of those left of it in its row.
fn columns_by_bands(sheet: &Sheet, choice: Choice) -> Vec<Option<u8>> {
    let taken = rows_taken(&outer_labels(sheet, choice));
    let row_of = |position: usize| i32::from(sheet.points()[position].row);
    let column_on_the_map = |position: usize| sheet.points()[position].column;
    let outside = |position: &usize| !choice.contains(*position);
    let n = sheet.points().len();
    let column_of = |position| {
        let before_in_the_band = |other: &usize| {
            let (row, other_row) = (row_of(position), row_of(*other));
            if row == other_row {
                return column_on_the_map(*other) < column_on_the_map(position);
            }
            row < other_row && (row..other_row).all(|row| taken.contains(&row))
        };
        let before = (0..n).filter(outside).filter(before_in_the_band);
        before.count() as u8
    };
    (0..n)
        .map(|position| outside(&position).then(|| column_of(position)))
        .collect()
}

/// How many pairs of outer labels, in whatever columns, have no row between them and share none.
fn touching_pairs(labels: &[OuterLabel]) -> usize {
    let ends: HashSet<i32> = labels.iter().map(|label| label.rows.end() + 1).collect();
    let starts = labels.iter().map(|label| label.rows.start());
    starts.filter(|start| ends.contains(start)).count()
}

#[test]
fn margin_columns_agree_with_bands_of_rows() {
    let mut random = Random::new(10);
    let mut touching = 0;
    for (most_side, most_label, rounds) in [(200, 40, 2000), (4096, 256, 200)] {
        for _ in 0..rounds {
            let sheet = any_size(&mut random, most_side, most_label);
            let choice = Choice(random.next_number() as u32);
            assert_eq!(
                margin_columns(&sheet, choice),
                columns_by_bands(&sheet, choice)
            );
            touching += touching_pairs(&outer_labels(&sheet, choice));
        }
    }
    // Often one label ends just below another, where stacking would leave no gap.
    assert!(touching > 1000, "{touching}");
}

#[test]
fn any_bytes_get_an_answer() {
    let mut random = Random::new(7);
    for _ in 0..20000 {
        // Bytes that are random, or a sheet or plate with some bytes changed, cut or added.
        let mut bytes = match random.below(3) {
            0 => Vec::new(),
            1 => small_dense(&mut random, 6, 12, 5).bytes().to_vec(),
            _ => {
                let sheet = small_dense(&mut random, 6, 12, 5);
                plate_bytes(&sheet, Choice(random.next_number() as u32))
            }
        };
        for _ in 0..random.below(4) {
            match random.below(3) {
                0 => bytes.push(random.next_number() as u8),
                1 => {
                    bytes.pop();
                }
                _ => {
                    let place = usize::from(random.below(bytes.len() as u16));
                    if let Some(byte) = bytes.get_mut(place) {
                        *byte = random.next_number() as u8;
                    }
                }
            }
        }
        let number = check_sheet(&bytes);
        assert!(number == 0 || (11..=20).contains(&number));
        let reading = read_plate(&bytes);
        let number = reading.number;
        assert!(matches!(number, 0 | 11..=20 | 41..=44));
        if number == 0 {
            let sheet = Sheet::read_start(&bytes).unwrap();
            let choice = Choice::of(reading.inside);
            assert_eq!(plate_bytes(&sheet, choice), bytes);
            assert!(valid(&sheet, choice));
            assert!(inside_positions(&sheet, choice).len() <= best_count(&sheet));
        }
        let mut desk = Desk::fresh();
        let number = desk.load(&bytes, usize::from(random.below(2)) * 32768);
        assert!(matches!(number, 0 | 11..=20 | 22 | 61));
        assert_eq!(number != 0, desk == Desk::fresh());
        let _ = desk.mark(&bytes);
        // The bytes as a rank list, from the point count on, and as a sheet beside some list.
        let list = bytes.get(9..).unwrap_or_default();
        let sheet = small_dense(&mut random, 6, 12, 5);
        for (sheet, list) in [(sheet.bytes(), list), (&bytes, &[1, 5])] {
            let mut desk = Desk::fresh();
            let number = desk.load_ranked(sheet, Some(list), WORKSPACE_NUMBERS);
            assert!(matches!(number, 0 | 11..=20 | 61..=63));
            let made = make_ranked(sheet, Some(list), 12 + 8 * 32, WORKSPACE_NUMBERS);
            assert_eq!(made.err().unwrap_or(0), number);
            assert_eq!(number != 0, desk == Desk::fresh());
        }
        let _ = run_script(&bytes);
    }
}
