//! Candidates of equal loss: the one that cuts fewer endpoints goes, then the lower one, and
//! evidence may name any that cuts as few.

use crate::edition::{FIRST, MAX_ENDPOINTS};
use crate::picture::{Endpoint, Slot, State};
use crate::samples::{case, tie};
use crate::tests::{choice_of, evidence_of};
use crate::{check, listing, pack, refusals, show, weigh, Picture};

/// An endpoint by its weight and the locations that serve it.
pub type Drawn<'d> = (u16, &'d [u16]);

/// Blocks of one slot, each held, near and linked from the origin, so that block b is location b + 1
/// and cuts the endpoints that no other location serves. No endpoint is protected.
pub fn drawn(blocks: usize, endpoints: &[Drawn]) -> Picture {
    let serving = (1..).zip(endpoints).flat_map(|(endpoint, (_, locations))| {
        locations.iter().map(move |location| (*location, endpoint))
    });
    Picture {
        edition: FIRST,
        block_size: 1,
        near_limit: 255,
        slots: vec![Slot { state: State::Held, near: true }; blocks],
        endpoints: endpoints
            .iter()
            .map(|(weight, _)| Endpoint { weight: *weight, protected: false })
            .collect(),
        links: (1..=blocks as u16).map(|slot| (0, slot)).collect(),
        serving: serving.collect(),
    }
}

/// The block that is chosen, and its loss.
fn chosen(picture: &Picture) -> Option<(u8, u32)> {
    choice_of(&pack(picture)).1
}

/// What the check says where the head of the evidence names this block in the chosen one's place.
fn named(picture: &Picture, block: u8) -> Result<(), u8> {
    let bytes = pack(picture);
    let mut evidence = evidence_of(&bytes);
    evidence[1] = block;
    check(&bytes, &evidence)
}

#[test]
fn the_higher_block_goes_where_it_cuts_fewer() {
    // 10 + 20 against 30.
    let picture = drawn(2, &[(10, &[1]), (20, &[1]), (30, &[2])]);
    assert_eq!(choice_of(&pack(&picture)), (60, Some((1, 30))));
    // 10 + 20, 15 + 15 and 30, in each place the 30 can have.
    let three = |alone, first, second| {
        drawn(3, &[(30, &[alone]), (10, &[first]), (20, &[first]), (15, &[second]), (15, &[second])])
    };
    assert_eq!(chosen(&three(1, 2, 3)), Some((0, 30)));
    assert_eq!(chosen(&three(2, 1, 3)), Some((1, 30)));
    assert_eq!(chosen(&three(3, 1, 2)), Some((2, 30)));
}

#[test]
fn an_endpoint_of_weight_0_decides() {
    // Both lose 30, and block 0 cuts one endpoint more.
    assert_eq!(chosen(&drawn(2, &[(30, &[1]), (0, &[1]), (30, &[2])])), Some((1, 30)));
    // Nothing weighs anything: three, two and one endpoints are cut, and then two, one and none.
    let falling = drawn(3, &[(0, &[1]), (0, &[1]), (0, &[1]), (0, &[2]), (0, &[2]), (0, &[3])]);
    assert_eq!(chosen(&falling), Some((2, 0)));
    assert_eq!(chosen(&drawn(3, &[(0, &[1]), (0, &[1]), (0, &[2])])), Some((2, 0)));
}

#[test]
fn the_lower_block_goes_where_both_are_equal() {
    // 10 + 20 against 5 + 25.
    let two = drawn(2, &[(10, &[1]), (20, &[1]), (5, &[2]), (25, &[2])]);
    assert_eq!(chosen(&two), Some((0, 30)));
    // Block 0 cuts three, blocks 1 and 2 two each.
    let three =
        drawn(3, &[(10, &[1]), (10, &[1]), (10, &[1]), (30, &[2]), (0, &[2]), (15, &[3]), (15, &[3])]);
    assert_eq!(chosen(&three), Some((1, 30)));
    // Case D: 30 against 30, one endpoint each.
    assert_eq!(chosen(&case('D')), Some((0, 30)));
    assert_eq!(named(&case('D'), 1), Ok(()));
}

#[test]
fn weight_comes_before_the_number_of_endpoints() {
    // One endpoint of 31 against three of 10.
    let picture = drawn(2, &[(31, &[1]), (10, &[2]), (10, &[2]), (10, &[2])]);
    assert_eq!(chosen(&picture), Some((1, 30)));
    assert_eq!(named(&picture, 0), Err(refusals::VERDICT));
    assert_eq!(named(&picture, 1), Ok(()));
}

#[test]
fn numbers_up_to_all_endpoints_decide() {
    // 130 endpoints against 70, and nothing weighs anything.
    let mut endpoints: Vec<Drawn> = vec![(0, &[1]); 130];
    endpoints.resize(MAX_ENDPOINTS, (0, &[2]));
    let apart = drawn(2, &endpoints);
    assert_eq!(chosen(&apart), Some((1, 0)));
    assert_eq!(named(&apart, 0), Err(refusals::VERDICT));
    // Slot 2 hangs on slot 1 and serves all endpoints but one: 200 against 199.
    endpoints.fill((0, &[2]));
    endpoints[7] = (0, &[1]);
    let mut line = drawn(2, &endpoints);
    line.links = vec![(0, 1), (1, 2)];
    assert_eq!(chosen(&line), Some((1, 0)));
    assert_eq!(named(&line, 0), Err(refusals::VERDICT));
}

#[test]
fn an_endpoint_counts_once_however_often_it_is_served() {
    // Block 1 cuts one endpoint, by three serving links; block 0 cuts two, by one each.
    let picture = drawn(2, &[(10, &[1]), (20, &[1]), (30, &[2, 2, 2])]);
    assert_eq!(chosen(&picture), Some((1, 30)));
    // The same with the three links from two slots of one block: blocks 0 and 1 are slots 1, 2 and 3, 4.
    let mut wide = drawn(4, &[(10, &[1]), (20, &[2]), (30, &[3, 4, 4])]);
    wide.block_size = 2;
    assert_eq!(chosen(&wide), Some((1, 30)));
}

#[test]
fn endpoints_that_stay_served_or_never_were_do_not_count() {
    // Block 0 cuts 30 alone: the origin, or block 1 too, serves the one of weight 0.
    assert_eq!(chosen(&drawn(2, &[(30, &[1]), (0, &[1, 0]), (30, &[2])])), Some((0, 30)));
    assert_eq!(chosen(&drawn(2, &[(30, &[1]), (0, &[1, 2]), (30, &[2])])), Some((0, 30)));
    // Slot 1 feeds two endpoints and is not reached, so that block 0 cuts none, as block 1.
    let mut apart = drawn(2, &[(0, &[1]), (0, &[1])]);
    apart.links.remove(0);
    assert_eq!(chosen(&apart), Some((0, 0)));
}

#[test]
fn a_block_that_cuts_a_protected_endpoint_is_in_no_tie() {
    // Block 0 cuts fewest but a protected one; block 1 cuts three, block 2 two.
    let mut picture =
        drawn(3, &[(30, &[1]), (10, &[2]), (10, &[2]), (10, &[2]), (15, &[3]), (15, &[3])]);
    picture.endpoints[0].protected = true;
    assert_eq!(chosen(&picture), Some((2, 30)));
    for (block, answer) in [(0, Err(16)), (1, Err(16)), (2, Ok(())), (3, Err(16))] {
        assert_eq!(named(&picture, block), answer, "block {block}");
    }
}

#[test]
fn evidence_may_name_any_block_that_cuts_as_few() {
    // All lose 30: blocks 0 and 3 cut two endpoints, blocks 1 and 2 one. Block 4 loses 31.
    let picture =
        drawn(5, &[(10, &[1]), (20, &[1]), (30, &[2]), (30, &[3]), (30, &[4]), (0, &[4]), (31, &[5])]);
    assert_eq!(chosen(&picture), Some((1, 30)));
    for (block, answer) in [(0, Err(16)), (1, Ok(())), (2, Ok(())), (3, Err(16)), (4, Err(16))] {
        assert_eq!(named(&picture, block), answer, "block {block}");
    }
}

#[test]
fn other_faults_come_before_a_block_that_cuts_more() {
    let bytes = pack(&drawn(2, &[(10, &[1]), (20, &[1]), (30, &[2])]));
    let mut evidence = evidence_of(&bytes);
    evidence[1] = 0;
    assert_eq!(check(&bytes, &evidence), Err(refusals::VERDICT));
    // The last forest starts with slot 1, on the origin; before it stand block, loss and mark.
    let forest = evidence.len() - 4;
    assert_eq!(evidence[forest - 5..], [1, 0, 0, 30, 0, 0, 1, 0, 0]);
    evidence[forest - 2] = 29;
    assert_eq!(check(&bytes, &evidence), Err(refusals::WEIGHT));
    evidence[forest + 1] = 0;
    assert_eq!(check(&bytes, &evidence), Err(refusals::FOREST));
}

/// The sample: block 0 cuts endpoint 1, of weight 30, and endpoint 3, of weight 0; block 1 cuts
/// endpoint 2, of weight 30.
#[test]
fn the_tie_of_the_samples_is_as_drawn() {
    let picture = pack(&tie());
    let evidence = [
        0x11, 0x01, 0x02, 0x00, 0x00, 0x3C, 0x00, 0x00, 0x1E, 0x00, 0x01, 0x00, 0x01, 0x01, 0x02, 0x00,
        0x01, 0x00, 0x00, 0x00, 0x1E, 0x00, 0x00, 0x00, 0x00, 0x00, 0x00, 0x00, 0x00, 0x01, 0x01, 0x00,
        0x00, 0x1E, 0x00, 0x00, 0x01, 0x00, 0x01, 0x00, 0x00, 0x00, 0x00,
    ];
    assert_eq!(evidence_of(&picture), evidence);
    assert_eq!(check(&picture, &evidence), Ok(()));
    assert_eq!(show(&picture, &evidence), &evidence[30..43]);
    assert_eq!(named(&tie(), 0), Err(refusals::VERDICT));
    assert_eq!(weigh(&picture, 0), Ok((60, 30, 0)));
    assert_eq!(weigh(&picture, 1), Ok((60, 30, 0)));
    let lines =
        ["served 60", "block 0 lost 30 mark 0", "block 1 lost 30 mark 0", "choose 1 lost 30", ""];
    assert_eq!(listing(&picture), lines.join("\n"));
}
