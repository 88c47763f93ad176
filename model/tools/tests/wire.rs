//! Random requests go to bytes and back.

use yavrinks_model::step::{Request, MAX_PAIRS};
use yavrinks_model::wire::{decode, encode};
use yavrinks_tools::generate::any_request;
use yavrinks_tools::rng::Rng;

#[test]
fn bytes_and_requests_go_back_and_forth() {
    let mut rng = Rng::new(11);
    for _ in 0..20_000 {
        let request = any_request(&mut rng);
        let bytes = encode(&request);
        let expected = match &request {
            Request::Send { list, .. } | Request::Allocate { list, .. }
                if list.len() > MAX_PAIRS =>
            {
                Request::Unknown {
                    code: request.code(),
                    actor: request.actor(),
                }
            }
            _ => request,
        };
        assert_eq!(decode(&bytes), expected);
    }
}
