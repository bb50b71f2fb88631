//! The kernel document's four captured messages: both requests fed, both completed, and every byte of both replies
//! sent.

use agreement::pair::{Completion, Pair};
use reference::capture::{self, bytes};
use reference::session::LEAST_HEADER;
use reference::table::Device;
use reference::wire::{op_req_import, HEADER_SIZE};

/// Completes a ticket with its 64 bytes, and sends the reply to a socket that takes so many bytes at a time.
fn sent(pair: &Pair, ticket: u64, data: &[u8], most: usize) -> Vec<u8> {
    let completion = Completion {
        ticket,
        status: 0,
        actual: 64,
        payload: data,
    };
    let mut header = [0xa5; LEAST_HEADER];
    let returned = pair.clone().complete(&completion, &mut header);
    let length = returned.expect("the ticket is pending").length;
    let n = length as usize - HEADER_SIZE;
    let mut reply = Vec::new();
    loop {
        let part = rimemaple::part(&header, data, n, 0, reply.len(), most);
        if part.is_empty() {
            return reply;
        }
        reply.extend_from_slice(part);
    }
}

#[test]
fn replies_go_out_as_captured() {
    let devices = [Device::new("/deck/1-1", "1-1", 1, 15)];
    let (mut pair, _) = Pair::open(&devices, 1);
    pair.stream(&op_req_import(&devices[0].busid));
    pair.stream(&bytes(capture::CMD_INTR_IN));
    pair.stream(&bytes(capture::CMD_INTR_OUT));
    pair.stream(&bytes(capture::CMD_INTR_OUT_DATA));
    let data = bytes(capture::RET_INTR_IN_DATA);
    let with_data = [bytes(capture::RET_INTR_IN), data.clone()].concat();
    for most in 1..=120 {
        assert_eq!(sent(&pair, 2, &data, most), bytes(capture::RET_INTR_OUT));
        assert_eq!(sent(&pair, 1, &data, most), with_data);
    }
}
