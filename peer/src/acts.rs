//! The three acts on a lent picture.

use std::ops::Range;

use crate::picture::{pack, read, Picture, State};
use crate::reach::Network;
use crate::refusals;

/// Turns the block's held slots into recoverable ones.
pub fn evict(lent: &mut [u8], block: u32) -> Result<(), u8> {
    let picture = read(lent)?;
    let locations = picture.named_block(block)?;
    let changed = with_states(&picture, &locations, |state| match state {
        State::Held => State::Recoverable,
        other => other,
    })?;
    judge_cut(&picture, &locations)?;
    lent.copy_from_slice(&pack(&changed));
    Ok(())
}

/// Turns the block's recoverable slots into held ones.
pub fn reload(lent: &mut [u8], block: u32) -> Result<(), u8> {
    let picture = read(lent)?;
    let locations = picture.named_block(block)?;
    let changed = with_states(&picture, &locations, |state| match state {
        State::Recoverable => State::Held,
        other => other,
    })?;
    // A reload of far slots alone is done, even where the picture is over its limit.
    let held_near = changed.held_near();
    if held_near > picture.held_near() && held_near > usize::from(picture.near_limit) {
        return Err(refusals::NEAR);
    }
    lent.copy_from_slice(&pack(&changed));
    Ok(())
}

/// Turns the block's held and recoverable slots into freed ones. No reload brings these back, so that
/// chains of held or recoverable slots are judged besides those of held ones.
pub fn free(lent: &mut [u8], block: u32) -> Result<(), u8> {
    let picture = read(lent)?;
    let locations = picture.named_block(block)?;
    let changed = with_states(&picture, &locations, |_| State::Freed)?;
    // An endpoint that is served over this block alone may have a recoverable slot elsewhere.
    judge_cut(&picture, &locations)?;
    judge_cut(&picture.all_reloaded(), &locations)?;
    lent.copy_from_slice(&pack(&changed));
    Ok(())
}

/// The picture with the states of these locations turned; a refusal if that changes none.
fn with_states(
    picture: &Picture,
    locations: &Range<usize>,
    turned: impl Fn(State) -> State,
) -> Result<Picture, u8> {
    let mut changed = picture.clone();
    for location in locations.clone() {
        let slot = &mut changed.slots[location - 1];
        slot.state = turned(slot.state);
    }
    if changed.slots == picture.slots {
        return Err(refusals::NO_CHANGE);
    }
    Ok(changed)
}

/// A refusal if a protected endpoint is served and would not be without these locations.
fn judge_cut(picture: &Picture, locations: &Range<usize>) -> Result<(), u8> {
    let (_, cut) = Network::new(picture).weigh(locations);
    if cut.mark == 1 {
        return Err(refusals::PROTECTED);
    }
    Ok(())
}
