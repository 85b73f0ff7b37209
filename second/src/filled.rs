//! A request of a wanted size: a private-class element after its last known one fills it up.

use crate::elements::element;
use crate::request::Request;

/// `None` where no filling gives this size, since lengths themselves grow by an octet.
pub fn filled(request: &Request, identifier: i32, size: usize) -> Option<Vec<u8>> {
    let bare = request.written(identifier).len();
    let most = size.checked_sub(bare)?;
    // The element's tag and length, and octets that the lengths around it may gain.
    let least = most.saturating_sub(12);
    (least..=most).rev().find_map(|octets| {
        let filling = element(0xC0, &vec![0xFF; octets]);
        let component = request.written_with(identifier, &filling);
        (component.len() == size).then_some(component)
    })
}
