//! What the program prints for a picture.

use std::fmt::Write;

use crate::choice::Plan;
use crate::picture::read;

/// The lines for a picture of any bytes, or the one line of a refusal.
pub fn listing(picture: &[u8]) -> String {
    match read(picture) {
        Err(number) => format!("refused {number}\n"),
        Ok(picture) => lines(&Plan::of(&picture)),
    }
}

fn lines(plan: &Plan) -> String {
    let mut text = format!("served {}\n", plan.served);
    for section in &plan.sections {
        let (block, cut) = (section.block, &section.cut);
        writeln!(text, "block {block} lost {} mark {}", cut.loss, cut.mark).expect("text grows");
    }
    match plan.least() {
        None => text + "choose none\n",
        Some(section) => text + &format!("choose {} lost {}\n", section.block, section.cut.loss),
    }
}
