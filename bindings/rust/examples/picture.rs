//! Draws docs/label.svg: one label's levels, the passes that reverse it, and the law for two of its marks.
//! Levels and order come from the library. The passes are drawn step by step: the last must be that order, and all
//! together must reverse as many positions as the library says.
use melvorash::Class::{self, EN, ES, L, R, WS};
use std::fmt::Write;

// Right-to-left letters stand as capitals, as in the Standard's own examples.
const MARKS: [char; 10] = ['A', 'B', '\u{2423}', '4', '0', '-', '7', '\u{2423}', 'k', 'N'];
const CLASSES: [Class; 10] = [R, R, WS, EN, EN, ES, EN, WS, L, L];

const CELL: usize = 52;
const LEFT: usize = 180;

struct Picture {
    levels: [u8; 10],
    svg: String,
    y: usize,
}

impl Picture {
    fn text(&mut self, x: usize, y: usize, style: &str, words: &str) {
        writeln!(self.svg, r#"<text x="{x}" y="{y}" {style}>{words}</text>"#).unwrap();
    }

    fn title(&mut self, words: &str) {
        let y = self.y + 34;
        self.text(14, y, r#"class="title""#, words);
    }

    /// The marks in an order, each a cell coloured by its level, with its position under it.
    fn row(&mut self, title: &str, order: &[u16]) {
        self.title(title);
        for (place, &position) in order.iter().enumerate() {
            let at = position as usize;
            let (x, y) = (LEFT + place * CELL, self.y);
            let level = self.levels[at];
            writeln!(
                self.svg,
                r#"<rect x="{x}" y="{y}" width="48" height="40" rx="4" class="level{level}"/>"#
            )
            .unwrap();
            self.text(x + 24, y + 27, r#"class="mark""#, &MARKS[at].to_string());
            self.text(x + 24, y + 54, r#"class="small""#, &position.to_string());
        }
        self.y += 74;
    }

    /// One word for each position of the memory order.
    fn words(&mut self, title: &str, word: impl Fn(usize) -> String) {
        let y = self.y + 12;
        self.text(14, y, r#"class="title""#, title);
        for at in 0..MARKS.len() {
            self.text(LEFT + at * CELL + 24, y, r#"class="word""#, &word(at));
        }
        self.y += 24;
    }

    /// The smallest level from one position to another says on which side the earlier one is displayed.
    fn pair(&mut self, from: usize, to: usize, order: &[u16]) {
        let least = *self.levels[from..=to].iter().min().unwrap();
        let place = |position: usize| order.iter().position(|&p| p as usize == position).unwrap();
        let side = if place(from) < place(to) { "left" } else { "right" };
        assert_eq!(side == "left", least % 2 == 0, "the pairwise law");
        let (x, y, width) = (LEFT + from * CELL, self.y, (to - from) * CELL + 48);
        writeln!(self.svg, r#"<path d="M{x} {y} v8 h{width} v-8" class="bracket"/>"#).unwrap();
        let kind = if least % 2 == 0 { "even" } else { "odd" };
        let words = format!("positions {from} to {to}: smallest level {least}, {kind}, so {from} is displayed to the {side} of {to}");
        self.text(LEFT, y + 26, r#"class="law""#, &words);
        self.y += 44;
    }
}

/// One pass of rule L2: every longest stretch at the level or above is reversed. Answers how many positions those are.
fn pass(order: &mut [u16], levels: &[u8], level: u8) -> usize {
    let mut reversed = 0;
    for stretch in order.split_mut(|&position| levels[position as usize] < level) {
        stretch.reverse();
        reversed += stretch.len();
    }
    reversed
}

fn main() {
    let classes = CLASSES.map(Class::number);
    let mut levels = [0; 10];
    let base =
        melvorash::resolve_levels(&classes, melvorash::BY_TEXT, 0, &mut levels).expect("the label is sound");
    let mut order = [0; 10];
    let line = melvorash::order_line(&classes, &levels, base, 0, 10, &mut order).expect("so is its line");
    assert_eq!(line.placed, 10, "nothing is removed");

    let mut picture = Picture { levels, svg: String::new(), y: 12 };
    let (mut drawn, mut reversed) = ((0..10).collect::<Vec<u16>>(), 0);
    picture.row("in memory", &drawn);
    picture.words("class", |at| format!("{:?}", CLASSES[at]));
    picture.words("level", |at| levels[at].to_string());
    picture.y += 20;
    let lowest_odd = levels.iter().copied().filter(|level| level % 2 == 1).min().unwrap_or(u8::MAX);
    for level in (lowest_odd..=levels.iter().copied().max().unwrap_or(0)).rev() {
        reversed += pass(&mut drawn, &levels, level);
        let last = if level == lowest_odd { ": displayed" } else { "" };
        picture.row(&format!("pass at {level}{last}"), &drawn);
    }
    assert_eq!(drawn, order, "the last pass gives the library's order");
    assert_eq!(reversed, line.reversed, "the passes reverse so many positions");
    picture.y += 16;
    picture.row("any two marks", &(0..10).collect::<Vec<u16>>());
    picture.pair(3, 6, &order);
    picture.pair(1, 4, &order);

    let (width, height) = (LEFT + 10 * CELL + 10, picture.y + 4);
    println!(
        r#"<svg xmlns="http://www.w3.org/2000/svg" width="{width}" height="{height}" viewBox="0 0 {width} {height}">"#
    );
    println!("{}", include_str!("picture.svg.part").trim_end());
    print!("{}", picture.svg);
    println!("</svg>");
}
