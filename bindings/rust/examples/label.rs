//! Orders one label. Capitals stand for right-to-left letters, as in the Unicode Standard's own examples.
use melvorash::{Class, Refusal};

fn class_of(character: char) -> Class {
    match character {
        'A'..='Z' => Class::R,
        'a'..='z' => Class::L,
        '0'..='9' => Class::EN,
        '%' => Class::ET,
        ' ' => Class::WS,
        _ => Class::ON,
    }
}

/// The label as it is shown, from left to right.
fn shown(label: &[char]) -> Result<String, Refusal> {
    let classes: Vec<u8> = label.iter().map(|&character| class_of(character).number()).collect();
    let mut levels = vec![0; label.len()];
    let mut order = vec![0; label.len()];
    let base = melvorash::resolve_levels(&classes, melvorash::BY_TEXT, 0, &mut levels)?;
    let line = melvorash::order_line(&classes, &levels, base, 0, label.len(), &mut order)?;
    Ok(order[..line.placed].iter().map(|&position| label[usize::from(position)]).collect())
}

fn main() -> Result<(), Refusal> {
    let label = "COTTON 25% soft";
    let characters: Vec<char> = label.chars().collect();
    println!("in memory: {label}");
    println!("as shown:  {}", shown(&characters)?);
    Ok(())
}
