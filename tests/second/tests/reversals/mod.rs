//! Ticket 6: Order counts the positions that it reverses, a stretch of one as
//! one, over all passes. The numbers are worked out by hand, pass by pass.

use crate::common::{classes, levels, line_counted, lines_counted, places, resolve};
use second::{line_levels, order_line, order_lines, Ordered};

/// Sees the order and the count of a whole paragraph as one line, from both
/// forms of Order.
fn on_one_line(names: &str, lent: &str, base: u8, order: &str, reversed: usize) {
    let (text, lent) = (classes(names), levels(lent));
    let end = text.len();
    let wanted = (places(order), reversed);
    assert_eq!(line_counted(&text, &lent, base, 0, end), wanted, "{names}");
    let listed = lines_counted(&text, &lent, base, &[end as u16]);
    assert_eq!(listed, wanted, "{names} by ends");
}

/// The count of one line of letters at levels.
fn of_levels(lent: &[u8]) -> usize {
    line_counted(&vec![0; lent.len()], lent, 0, 0, lent.len()).1
}

/// The count of letters at levels in lines.
fn of_lines(lent: &[u8], ends: &[u16]) -> usize {
    lines_counted(&vec![0; lent.len()], lent, 0, ends).1
}

/// What ticket 6 says the count equals: the sum of the levels less the lowest
/// odd one plus 1, where that is positive.
fn sum_of_the_ticket(line: &[u8]) -> usize {
    let lowest_odd = line.iter().filter(|&&level| level % 2 == 1).min();
    let above = |lowest: u8| {
        let each = |&level: &u8| usize::from((level + 1).saturating_sub(lowest));
        line.iter().map(each).sum()
    };
    lowest_odd.map_or(0, |&lowest| above(lowest))
}

// No odd level.

#[test]
fn no_odd_level_no_pass() {
    on_one_line("L", "0", 0, "0", 0);
    on_one_line("L EN L", "0 2 0", 0, "0 1 2", 0);
    on_one_line("EN EN", "2 2", 1, "0 1", 0);
    on_one_line("L L L L", "4 2 62 0", 0, "0 1 2 3", 0);
}

#[test]
fn nothing_kept_nothing_reversed() {
    on_one_line("RLE BN PDF", "- - -", 1, "", 0);
}

// One odd level.

#[test]
fn a_stretch_of_one_counts_as_one() {
    // One pass, at 1: the stretch 0.
    on_one_line("R", "1", 1, "0", 1);
    // One pass, at 1: the stretches 0 and 2, one each.
    on_one_line("R L R", "1 0 1", 0, "0 1 2", 2);
    // One pass, at 61.
    on_one_line("R L", "61 0", 0, "0 1", 1);
}

#[test]
fn one_pass_adds_all_its_stretches() {
    // One pass, at 1: three positions.
    on_one_line("R R R", "1 1 1", 1, "2 1 0", 3);
    // One pass, at 1: the stretch 1 and the stretch 3 4.
    on_one_line("L R L R R", "0 1 0 1 1", 0, "0 1 2 4 3", 1 + 2);
}

#[test]
fn a_position_counts_once_in_each_pass_that_turns_it() {
    // At 2 the stretch 2 3, at 1 all four: document 01's printed example.
    on_one_line("R WS EN ET", "1 1 2 2", 1, "2 3 1 0", 2 + 4);
    // At 2 the stretch 1, at 1 both.
    on_one_line("AL EN", "1 2", 1, "1 0", 1 + 2);
    // At 2 the stretches 0 and 3, at 1 all four.
    on_one_line("EN CS CS EN", "2 1 1 2", 1, "3 2 1 0", 2 + 4);
    // At 2 the stretch 1, at 1 the stretch 1 3.
    on_one_line("RLE L PDF R", "- 2 - 1", 0, "3 1", 1 + 2);
}

// Gaps between the levels.

#[test]
fn a_pass_at_a_level_not_found_still_turns() {
    // At 4, 3 and 2 the stretch 1 2, at 1 all four.
    on_one_line("R L L R", "1 4 4 1", 0, "3 1 2 0", 3 * 2 + 4);
    // At 3 and 2 the stretch 1 2, at 1 all four.
    on_one_line("R L L R", "1 3 3 1", 0, "3 2 1 0", 2 * 2 + 4);
    // At 5 and 4 the stretch 1, at 3 the stretches 1 and 3, one each.
    on_one_line("L R L L", "0 5 0 3", 0, "0 1 2 3", 1 + 1 + 2);
    // From 62 to 4, 59 passes, the stretch 1; at 3 both.
    on_one_line("R L", "3 62", 0, "1 0", 59 + 2);
    // From 62 to 1, 62 passes, the stretch 0, and at 1 the stretch 2 too.
    on_one_line("L L R", "62 0 1", 0, "0 1 2", 62 + 1);
}

#[test]
fn two_odd_levels_with_a_gap() {
    // At 5 and 4 the stretches 0 and 2, one each; at 3 all three.
    on_one_line("R R R", "5 3 5", 0, "2 1 0", 2 * 2 + 3);
}

// Levels below the lowest odd one.

#[test]
fn levels_below_the_lowest_odd_one_do_not_count() {
    // One pass, at 5: the stretch 1.
    on_one_line("L R L L", "2 5 0 4", 0, "0 1 2 3", 1);
    // At 4 the stretch 2, at 3 the stretch 1 2.
    on_one_line("L R L L", "2 3 4 2", 0, "0 2 1 3", 1 + 2);
    // At 8 and 7 the stretch 2, at 6 the stretches 0 and 2, at 5 the stretch
    // 0 1 2.
    on_one_line("L R L L", "6 5 8 4", 0, "2 1 0 3", 1 + 1 + 2 + 3);
    // At 62 the stretch 1, at 61 both; 60 stays out.
    on_one_line("R L L", "61 62 60", 0, "1 0 2", 1 + 2);
}

// The line's reset.

#[test]
fn blanks_that_go_back_below_do_not_count() {
    // After the reset 1 0: at 1 the stretch 0.
    on_one_line("R WS", "1 1", 0, "0 1", 1);
    // After the reset 1 0 1: at 1 two stretches of one.
    on_one_line("R S R", "1 1 1", 0, "0 1 2", 2);
    // After the reset 1 0 0 0: at 1 the stretch 0.
    on_one_line("R WS CR B", "1 1 1 1", 0, "0 1 2 3", 1);
    // After the reset 0: no odd level.
    on_one_line("WS", "61", 0, "0", 0);
}

#[test]
fn blanks_that_go_back_to_1_count_as_1() {
    // After the reset 2 1 1 1: at 2 the stretch 0, at 1 all four. No pass at 4
    // and none at 3.
    on_one_line("L WS WS B", "2 4 3 2", 1, "3 2 1 0", 1 + 4);
    // After the reset 2 1: the blank gives the line its odd level.
    on_one_line("L WS", "2 2", 1, "1 0", 1 + 2);
}

#[test]
fn a_blank_counts_on_the_line_where_it_stays() {
    let (text, lent) = (classes("R WS R"), levels("1 1 1"));
    // Whole: at 1 all three.
    assert_eq!(line_counted(&text, &lent, 0, 0, 3), (places("2 1 0"), 3));
    // From 0 to 2 after the reset 1 0, from 1 to 3 none goes back.
    assert_eq!(line_counted(&text, &lent, 0, 0, 2), (places("0 1"), 1));
    assert_eq!(line_counted(&text, &lent, 0, 1, 3), (places("2 1"), 2));
    // In lines: 1 on the first and 1 on the second.
    assert_eq!(
        lines_counted(&text, &lent, 0, &[2, 3]),
        (places("0 1 2"), 2)
    );
}

// Removed positions.

#[test]
fn removed_positions_neither_count_nor_part_a_stretch() {
    // At 1 the stretch 0 2, turned as one.
    on_one_line("R BN R", "1 - 1", 1, "2 0", 2);
    // At 2 the stretch 2, at 1 the stretch 0 2.
    on_one_line("R PDF L", "1 - 2", 1, "2 0", 1 + 2);
    // At 4, 3 and 2 the stretch 2 4, at 1 the stretch 0 2 4 6.
    let names = "R RLE L BN L PDF R";
    on_one_line(names, "1 - 4 - 4 - 1", 0, "6 2 4 0", 3 * 2 + 4);
}

#[test]
fn the_number_of_removed_positions_gives_no_level() {
    // 255 is odd and the highest; it is no level.
    on_one_line("BN L BN L", "- 2 - 4", 0, "1 3", 0);
    // One pass, at 3.
    on_one_line("BN L BN R", "- 2 - 3", 0, "1 3", 1);
}

// Several lines.

#[test]
fn all_lines_are_the_sum_of_each() {
    let lent = [1, 2, 3, 4, 2, 2];
    // Line 1 2: at 2 one, at 1 two. Line 3 4: at 4 one, at 3 two. Line 2 2: no
    // odd level.
    assert_eq!(of_lines(&lent, &[2, 4, 6]), 3 + 3);
    // Line 1 2 3: at 3 one, at 2 two, at 1 three. Line 4 2 2: none.
    assert_eq!(of_lines(&lent, &[3, 6]), 6);
    // Line 1: one. Line 2 3 4 2 2: at 4 one, at 3 two.
    assert_eq!(of_lines(&lent, &[1, 6]), 1 + 3);
    // One position each: those at 1 and 3.
    assert_eq!(of_lines(&lent, &[1, 2, 3, 4, 5, 6]), 2);
    // As one line: at 4 one, at 3 two, at 2 five, at 1 six.
    assert_eq!(of_lines(&lent, &[6]), 1 + 2 + 5 + 6);
}

#[test]
fn a_line_goes_by_its_own_lowest_and_highest_level() {
    // Line 5 6: at 6 one, at 5 two. Line 1 0: at 1 one.
    assert_eq!(of_lines(&[5, 6, 1, 0], &[2, 4]), 3 + 1);
    // Line 62 62: none. Line 61: one. Line 62 1: from 62 to 2 one each, 61
    // passes, and at 1 two.
    assert_eq!(of_lines(&[62, 62, 61, 62, 1], &[2, 3, 5]), 1 + 61 + 2);
}

#[test]
fn each_line_counts_as_by_itself() {
    let text = classes("R WS S L RLE EN R WS PDF AN R WS CR B");
    let (base, lent) = resolve(&text, 1);
    let ends = [3, 4, 5, 8, 11, 14];
    let mut sum = 0;
    let mut from = 0;
    for end in ends.map(usize::from) {
        sum += line_counted(&text, &lent, base, from, end).1;
        from = end;
    }
    assert_eq!(lines_counted(&text, &lent, base, &ends).1, sum);
}

// The most.

#[test]
fn the_most_that_a_line_can_have() {
    let text = vec![0; 4096];
    for place in [0, 1, 2000, 4095] {
        let mut lent = vec![62; 4096];
        lent[place] = 1;
        // From 62 to 2, 61 passes, 4,095 positions in one or two stretches; at
        // 1 all of them. That is more than 16 bits hold.
        let wanted = 61 * 4095 + 4096;
        assert_eq!(wanted, 253_891);
        assert_eq!(line_counted(&text, &lent, 0, 0, 4096).1, wanted);
        assert_eq!(lines_counted(&text, &lent, 0, &[4096]).1, wanted);
        // One position each: only that at 1 is turned.
        let each: Vec<u16> = (1..=4096).collect();
        assert_eq!(lines_counted(&text, &lent, 0, &each).1, 1);
    }
    // In two lines, one without an odd level.
    let mut lent = vec![62; 4096];
    lent[4095] = 1;
    // The second: from 62 to 2 61 passes of 2,047, and at 1 2,048.
    assert_eq!(of_lines(&lent, &[2048, 4096]), 61 * 2047 + 2048);
}

// Refusals.

#[test]
fn a_refusal_has_none() {
    let (text, lent) = (classes("R R"), levels("1 1"));
    let order = &mut [0; 2];
    let both = Ordered {
        placed: 2,
        reversed: 2,
    };
    assert_eq!(order_line(&text, &lent, 0, 0, 2, order), Ok(both));
    assert_eq!(order_line(&text, &lent, 0, 0, 3, order), Err((8, 0)));
    assert_eq!(order_line(&text, &lent, 0, 0, 2, &mut [0]), Err((9, 0)));
    assert_eq!(order_lines(&text, &lent, 0, &[1], order), Err((10, 0)));
    // Lines before the bad end do not count.
    assert_eq!(order_lines(&text, &lent, 0, &[1, 1], order), Err((10, 0)));
}

// The ticket's own words.

#[test]
fn the_count_is_the_sum_and_below_the_bound() {
    let some = [0, 1, 2, 3, 4, 5, 60, 61, 62];
    let mut all: Vec<Vec<u8>> = vec![Vec::new()];
    let mut done = 0;
    while done < all.len() && all[done].len() < 4 {
        for level in some {
            all.push([&all[done][..], &[level]].concat());
        }
        done += 1;
    }
    for line in &all[1..] {
        let count = of_levels(line);
        assert_eq!(count, sum_of_the_ticket(line), "{line:?}");
        assert!(count <= 62 * line.len(), "{line:?}");
    }
}

#[test]
fn the_sum_goes_by_the_levels_after_the_reset() {
    let text = classes("R WS BN WS S L EN WS PDF WS");
    let lent = levels("3 5 - 1 7 4 6 9 - 3");
    for base in [0, 1] {
        let mut reset = line_levels(&text, &lent, base, 0, 10);
        reset.retain(|&level| level != 255);
        let count = line_counted(&text, &lent, base, 0, 10).1;
        assert_eq!(count, sum_of_the_ticket(&reset), "base {base}");
    }
}
