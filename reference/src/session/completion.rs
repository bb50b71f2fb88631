//! Completions: what the device side says of a ticket, and the reply that it makes.

use super::{Session, Urb, LEAST_HEADER};
use crate::packets::{self, PacketResult};
use crate::refusal::{Refusal, EREMOTEIO};
use crate::wire::{self, RetSubmit, URB_SHORT_NOT_OK, USBIP_DIR_IN};

/// What an accepted completion answers.
#[derive(Clone, Copy, Debug, PartialEq, Eq)]
pub struct Returned {
    /// Bytes on the wire.
    pub length: usize,
    /// The status that the client is sent.
    pub status: i32,
}

struct Completion<'a> {
    ticket: u64,
    status: i32,
    actual_length: u32,
    /// Of the packets, in a completion of the isochronous kind.
    results: Option<&'a [PacketResult]>,
    data: &'a [u8],
}

impl Session {
    /// Writes the 48 bytes of the return and answers its length on the wire and its status.
    pub fn complete(
        &mut self,
        ticket: u64,
        status: i32,
        actual_length: u32,
        data: &[u8],
        header: &mut [u8],
    ) -> Result<Returned, Refusal> {
        let completion = Completion {
            ticket,
            status,
            actual_length,
            results: None,
            data,
        };
        self.return_urb(&completion, header)
    }

    /// The same for an isochronous URB: behind the 48 bytes come the descriptors of its packets.
    pub fn complete_iso(
        &mut self,
        ticket: u64,
        status: i32,
        total: u32,
        results: &[PacketResult],
        data: &[u8],
        header: &mut [u8],
    ) -> Result<Returned, Refusal> {
        let completion = Completion {
            ticket,
            status,
            actual_length: total,
            results: Some(results),
            data,
        };
        self.return_urb(&completion, header)
    }

    fn return_urb(
        &mut self,
        completion: &Completion,
        header: &mut [u8],
    ) -> Result<Returned, Refusal> {
        if self.is_closed() {
            return Err(Refusal::Closed);
        }
        if header.len() < LEAST_HEADER {
            return Err(Refusal::SmallBuffer);
        }
        let mut urbs = self.pending.iter();
        let Some(index) = urbs.position(|urb| urb.ticket == completion.ticket) else {
            return Err(Refusal::NotPending);
        };
        completion.check(&self.pending[index])?;
        let urb = self.pending.remove(index);
        self.returned += 1;
        let reply = completion.reply(&urb);
        header[..reply.len()].copy_from_slice(&reply);
        Ok(Returned {
            length: reply.len() + completion.data_size(&urb),
            status: completion.status_sent(&urb),
        })
    }
}

impl Completion<'_> {
    fn check(&self, urb: &Urb) -> Result<(), Refusal> {
        if self.status > 0 {
            Err(Refusal::PositiveStatus)
        } else if !self.fits(urb) {
            Err(Refusal::Misfit)
        } else if self.data.len() < self.data_size(urb) {
            Err(Refusal::ShortData)
        } else {
            Ok(())
        }
    }

    fn fits(&self, urb: &Urb) -> bool {
        let results_fit = match self.results {
            Some(results) => {
                urb.is_isochronous()
                    && packets::fit_results(&urb.packets, results, self.actual_length)
            }
            None => !urb.is_isochronous(),
        };
        self.actual_length <= urb.transfer_buffer_length && results_fit
    }

    /// How much of the data is sent.
    fn data_size(&self, urb: &Urb) -> usize {
        match urb.direction {
            USBIP_DIR_IN => self.actual_length as usize,
            _ => 0,
        }
    }

    /// A short read that the device gives as good isn't, if the client said so.
    fn status_sent(&self, urb: &Urb) -> i32 {
        let may_be_short = urb.transfer_flags & URB_SHORT_NOT_OK == 0;
        if urb.direction != USBIP_DIR_IN || urb.is_isochronous() || may_be_short {
            self.status
        } else if self.status == 0 && self.actual_length < urb.transfer_buffer_length {
            -EREMOTEIO
        } else {
            self.status
        }
    }

    /// The header and the descriptors, between which the data is sent.
    fn reply(&self, urb: &Urb) -> Vec<u8> {
        let results = self.results.unwrap_or_default();
        let ret = RetSubmit {
            seqnum: urb.seqnum,
            status: self.status_sent(urb),
            actual_length: self.actual_length,
            start_frame: urb.start_frame,
            number_of_packets: urb.number_of_packets,
            error_count: packets::count_errors(results),
        };
        let pairs = urb.packets.iter().zip(results);
        let list: Vec<_> = pairs
            .map(|(packet, &result)| packet.descriptor(result))
            .collect();
        [&ret.header()[..], &wire::descriptors(&list)].concat()
    }
}
