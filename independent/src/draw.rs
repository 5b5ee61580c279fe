//! Lines of operators, carried out on one solid.

use crate::edit::{Edit, Operator};
use crate::listing::listing;
use crate::rules;
use crate::solid::Solid;
use crate::text::{lines, numbers};

/// A reply for each line that has a word, and then the listing.
pub fn draw(input: &[u8]) -> String {
    let mut solid = Solid::default();
    let mut text = String::new();
    for line in lines(input) {
        match carry_out(&mut solid, &line.words) {
            Ok(()) => text += "ok\n",
            Err(refused) => text += &format!("no {refused} {}\n", line.number),
        }
    }
    text + &listing(&solid)
}

/// 40 for a first word that is no operator's name, 41 for wrong arguments,
/// else as the solid answers.
fn carry_out(solid: &mut Solid, words: &[&[u8]]) -> Result<(), u32> {
    let operator = Operator::by_name(words[0]).ok_or(40u32)?;
    let arguments = numbers(&words[1..]).ok_or(41u32)?;
    let edit = Edit::new(operator, &arguments).ok_or(41u32)?;
    rules::apply(solid, &edit).map_err(|refusal| refusal.number())
}
