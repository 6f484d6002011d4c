//! Links and serving links that name what is not there: the number of the first is told, by the reader
//! of bytes and by the writer of lists.

use crate::faults::wrong_ends;
use crate::samples::{case_a, second};
use crate::tests::{written, ROOM};
use crate::{lists_of, pack, read, refusals, Picture};

type Change = fn(&mut Picture);

/// Case A of both editions with links and serving links changed, or its endpoints gone, and the number
/// that is due.
fn examples() -> Vec<(u8, Picture)> {
    let changes: [(u8, Change); 10] = [
        (refusals::SERVICE_LOCATION, |picture| picture.serving[2].0 = 5),
        (refusals::SERVICE_LOCATION, |picture| picture.serving[0].0 = 255),
        (refusals::SERVICE_ENDPOINT, |picture| picture.serving[2].1 = 0),
        (refusals::SERVICE_ENDPOINT, |picture| picture.serving[0].1 = 3),
        (refusals::SERVICE_ENDPOINT, |picture| picture.serving[1].1 = 255),
        (refusals::SERVICE_LOCATION, |picture| picture.serving[1] = (5, 0)),
        (refusals::SERVICE_ENDPOINT, |picture| picture.serving[..2].copy_from_slice(&[(1, 0), (5, 1)])),
        (refusals::SERVICE_ENDPOINT, |picture| picture.endpoints.clear()),
        (refusals::SERVICE_LOCATION, |picture| without_endpoints(picture, 0)),
        (refusals::SERVICE_ENDPOINT, |picture| without_endpoints(picture, 1)),
    ];
    let mut examples = Vec::new();
    for right in [case_a(), second()] {
        examples.extend(changes.map(|(number, change)| (number, changed(&right, change))));
        examples.extend(wrong_ends(&right));
    }
    examples
}

fn changed(right: &Picture, change: Change) -> Picture {
    let mut picture = right.clone();
    change(&mut picture);
    picture
}

/// No endpoints, and one serving link whose location is not there either.
fn without_endpoints(picture: &mut Picture, row: usize) {
    picture.endpoints.clear();
    picture.serving[row].0 = 5;
}

#[test]
fn the_first_wrong_number_of_links_is_told() {
    for (number, picture) in examples() {
        let bytes = pack(&picture);
        assert_eq!(read(&bytes), Err(number), "{picture:?}");
        for room in [0, bytes.len(), ROOM] {
            assert_eq!(written(&lists_of(&picture), room), Err(number), "{room} bytes, {picture:?}");
        }
    }
}

#[test]
fn a_state_comes_before_links() {
    for (_, picture) in examples() {
        let mut bytes = pack(&picture);
        bytes[picture.edition.header_bytes()] |= 0xC0;
        assert_eq!(read(&bytes), Err(refusals::STATE), "{picture:?}");
        let mut lists = lists_of(&picture);
        lists.states[3] = 3;
        assert_eq!(written(&lists, ROOM), Err(refusals::STATE), "{picture:?}");
    }
}

#[test]
fn fill_and_spare_bytes_come_after_links() {
    let right = [case_a(), second()].map(|right| (refusals::FILL, right));
    for (number, picture) in right.into_iter().chain(examples()) {
        let mut bytes = [pack(&picture), vec![0]].concat();
        assert_eq!(read(&bytes), Err(number), "a byte too many, {picture:?}");
        bytes.pop();
        *bytes.last_mut().expect("a picture has bytes") |= 1;
        assert_eq!(read(&bytes), Err(number), "a fill bit, {picture:?}");
    }
}
