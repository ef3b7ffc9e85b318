//! Striking (CR 3): of an input all requests whose level byte is above 3 or not dominated by k (CR 6),
//! of an output the replies to them, and nothing else.

use crate::desk::Desk;
use crate::opening::split_header;
use crate::order::Order;
use crate::rule::Rule;
use crate::run::opened;
use crate::wire::{requests_in, Request, REPLY_BYTES, REQUEST_BYTES};

/// What the two lists are called where replies to them are told apart.
pub const WHOLE: &str = "whole list";
pub const STRUCK: &str = "struck list";

/// Whether the request stays at level k.
pub fn stays(request: &Request, k: u8, order: Order) -> bool {
    order.dominates(k, request.level)
}

/// An input of which the requests that a level does not dominate are struck.
pub struct Struck {
    /// What is left of it: the header and an unfinished last request stay as they are.
    pub input: Vec<u8>,
    /// Of each whole request of the whole input, whether it stays.
    pub stays: Vec<bool>,
    /// Whether requests are answered at all.
    pub is_opened: bool,
}

impl Struck {
    pub fn of(input: &[u8], k: u8) -> Struck {
        let (header, requests) = split_header(input);
        // Which requests are struck does not depend on the rule.
        let house = opened(header, Rule::A);
        let is_opened = house.is_some();
        let order = house.unwrap_or_else(Desk::refused).order;
        let stays: Vec<bool> =
            requests_in(requests).map(|request| stays(&request, k, order)).collect();
        let left = kept(requests, REQUEST_BYTES, &stays);
        let unfinished = requests.chunks_exact(REQUEST_BYTES).remainder();
        let input = [header, &left, unfinished].concat();
        Struck { input, stays, is_opened }
    }

    /// Of the output to the whole input, the replies to the requests that stay. The one reply to an
    /// opening that is refused or cut short is no request's, so it stays.
    pub fn replies(&self, output: &[u8]) -> Vec<u8> {
        if !self.is_opened {
            return output.to_vec();
        }
        kept(output, REPLY_BYTES, &self.stays)
    }

    /// Where in the whole list the request stands that has this index among those that stay.
    pub fn index_in_whole(&self, index: usize) -> usize {
        let mut staying = (0..self.stays.len()).filter(|&whole| self.stays[whole]);
        staying.nth(index).unwrap_or(self.stays.len())
    }
}

/// Those of the pieces of this size that stay.
fn kept(bytes: &[u8], size: usize, stays: &[bool]) -> Vec<u8> {
    let pieces = bytes.chunks(size).zip(stays).filter(|(_, stays)| **stays);
    pieces.flat_map(|(piece, _)| piece).copied().collect()
}

#[cfg(test)]
mod tests {
    use super::*;
    use crate::opening::Opening;
    use crate::order::closed;
    use crate::run::{output_for, BY_THE_RULES};

    fn header(levels: &[u8], table: &[u8]) -> Vec<u8> {
        Opening::new(levels, table).header()
    }

    /// A request of 12 bytes and a reply of 16 that can be told from others.
    fn request(level: u8, mark: u8) -> [u8; REQUEST_BYTES] {
        [mark, level, mark, mark, mark, mark, mark, mark, mark, mark, mark, mark]
    }

    fn reply(mark: u8) -> [u8; REPLY_BYTES] {
        [mark; REPLY_BYTES]
    }

    #[test]
    fn requests_not_dominated_by_the_level_are_struck_and_nothing_else() {
        let requests = [request(2, 0), request(0, 1), request(255, 2), request(1, 3)];
        let replies = [reply(0), reply(1), reply(2), reply(3)];
        let input_of = |order: Order, requests: Vec<[u8; REQUEST_BYTES]>| {
            let header = header(&[0, 3, 2], &order.table());
            [&header[..], &requests.concat(), &[0, 3, 0, 0, 0]].concat()
        };
        let (chain, diamond) = (Order::CHAIN, Order::DIAMOND);
        let apart = Order::of(&closed(&[])).expect("an order");
        let cases: [(Order, u8, &[usize]); 9] = [
            (chain, 0, &[1]),
            (chain, 1, &[1, 3]),
            (chain, 2, &[0, 1, 3]),
            (chain, 3, &[0, 1, 3]),
            (diamond, 1, &[1, 3]),
            (diamond, 2, &[0, 1]),
            (diamond, 3, &[0, 1, 3]),
            (apart, 2, &[0]),
            (apart, 3, &[]),
        ];
        for (order, k, staying) in cases {
            let struck = Struck::of(&input_of(order, requests.to_vec()), k);
            let left = staying.iter().map(|&index| requests[index]).collect();
            assert_eq!(struck.input, input_of(order, left), "{order}, k = {k}");
            let left: Vec<_> = staying.iter().map(|&index| replies[index]).collect();
            assert_eq!(struck.replies(&replies.concat()), left.concat(), "{order}, k = {k}");
            let indices: Vec<_> = (0..=staying.len()).map(|i| struck.index_in_whole(i)).collect();
            assert_eq!(indices, [staying, &[requests.len()]].concat(), "{order}, k = {k}");
        }
    }

    #[test]
    fn the_reply_to_an_opening_stays() {
        let requests = [request(3, 0), request(2, 1)].concat();
        let table = Order::DIAMOND.table();
        let headers =
            [[&[0][..], &table].concat(), header(&[0, 4], &table), header(&[0], &[1; 16])];
        // Where the levels or the table are cut short, what looks like requests is some of them.
        let cases: [(&[u8], &[u8], &[u8]); 6] = [
            (&[], &[], &[]),
            (&[2, 0], &[], &[]),
            (&[70], &requests, &requests),
            (&headers[0], &requests, &requests[REQUEST_BYTES..]),
            (&headers[1], &requests, &requests[REQUEST_BYTES..]),
            (&headers[2], &requests, &requests[REQUEST_BYTES..]),
        ];
        for (header, behind, left) in cases {
            let input = [header, behind].concat();
            let struck = Struck::of(&input, 2);
            assert_eq!(struck.input, [header, left].concat(), "{header:?}");
            let output = output_for(&input, Rule::A, BY_THE_RULES);
            assert_eq!((struck.is_opened, struck.replies(&output)), (false, output), "{header:?}");
        }
    }
}
