// An ordinary implementation of the book, written on its own, to measure the proved one against.

use crate::independent::{Arranger, Chain, Euler, Line};

const NODES: usize = 512;
const LIVE: usize = 1024;

#[derive(Clone, Copy)]
struct Record {
    ticket: u16,
    sender: u16,
    receiver: u16,
}

#[derive(Clone, Copy, Default)]
pub struct Seat {
    pub round: u8,
    pub spine: u8,
}

// A book with its two arrangers. A flag would tell a draft from a timetable; the callers here need none.
pub struct Book<A, B> {
    m: u8,
    n: u8,
    rounds: u8,
    given: u16,
    live: Vec<Record>,
    // how many live transfers each node sends, and how many it receives
    sent: [u8; NODES],
    received: [u8; NODES],
    round_arranger: A,
    spine_arranger: B,
    pub seats: Vec<Seat>,
    lines: Vec<Line>,
    // the places of the live transfers, round by round
    order: Vec<u16>,
}

impl<A: Arranger, B: Arranger> Book<A, B> {
    pub fn new(round_arranger: A, spine_arranger: B) -> Self {
        Book {
            m: 1,
            n: 1,
            rounds: 1,
            given: 0,
            live: Vec::with_capacity(LIVE),
            sent: [0; NODES],
            received: [0; NODES],
            round_arranger,
            spine_arranger,
            seats: Vec::with_capacity(LIVE),
            lines: Vec::with_capacity(LIVE),
            order: Vec::with_capacity(LIVE),
        }
    }

    pub fn fit(&mut self, m: u8, n: u8, rounds: u8) -> Result<(), u8> {
        if !(1..=32).contains(&m) {
            return Err(1);
        }
        if n > 16 || !n.is_power_of_two() {
            return Err(2);
        }
        if !(1..=64).contains(&rounds) {
            return Err(3);
        }
        if !self.round_arranger.serves(rounds) {
            return Err(4);
        }
        if !self.live.is_empty() {
            return Err(5);
        }
        (self.m, self.n, self.rounds) = (m, n, rounds);
        Ok(())
    }

    pub fn book(&mut self, sender: u16, receiver: u16) -> Result<u16, u8> {
        let nodes = u16::from(self.m) * u16::from(self.n);
        if sender >= nodes {
            return Err(6);
        }
        if receiver >= nodes {
            return Err(7);
        }
        if self.sent[usize::from(sender)] >= self.rounds {
            return Err(8);
        }
        if self.received[usize::from(receiver)] >= self.rounds {
            return Err(9);
        }
        if self.live.len() >= LIVE {
            return Err(10);
        }
        if self.given == u16::MAX {
            return Err(11);
        }
        self.sent[usize::from(sender)] += 1;
        self.received[usize::from(receiver)] += 1;
        self.given += 1;
        self.live.push(Record { ticket: self.given, sender, receiver });
        Ok(self.given)
    }

    pub fn cancel(&mut self, ticket: u16) -> Result<(u16, u16), u8> {
        let place = self.live.binary_search_by_key(&ticket, |r| r.ticket).map_err(|_| 12)?;
        let Record { sender, receiver, .. } = self.live.remove(place);
        self.sent[usize::from(sender)] -= 1;
        self.received[usize::from(receiver)] -= 1;
        Ok((sender, receiver))
    }

    // Rounds by node, then the spines of each round by line. Neither arranger can refuse.
    pub fn issue(&mut self) {
        self.lines.clear();
        self.lines.extend(self.live.iter().map(|r| Line { left: r.sender, right: r.receiver, colour: 0 }));
        self.round_arranger.arrange(&mut self.lines, self.rounds).unwrap();
        self.seats.clear();
        self.seats.extend(self.lines.iter().map(|line| Seat { round: line.colour, spine: 0 }));
        // where the places of each round begin
        let mut starts = [0u16; 65];
        for seat in &self.seats {
            starts[usize::from(seat.round) + 1] += 1;
        }
        for k in 0..64 {
            starts[k + 1] += starts[k];
        }
        let mut next = starts;
        self.order.resize(self.live.len(), 0);
        for (place, seat) in self.seats.iter().enumerate() {
            let at = &mut next[usize::from(seat.round)];
            self.order[usize::from(*at)] = place as u16;
            *at += 1;
        }
        let shift = self.n.trailing_zeros();
        for round in 0..usize::from(self.rounds) {
            let places = &self.order[usize::from(starts[round])..usize::from(starts[round + 1])];
            self.lines.clear();
            self.lines.extend(places.iter().map(|place| {
                let record = self.live[usize::from(*place)];
                Line { left: record.sender >> shift, right: record.receiver >> shift, colour: 0 }
            }));
            self.spine_arranger.arrange(&mut self.lines, self.n).unwrap();
            for (place, line) in places.iter().zip(&self.lines) {
                self.seats[usize::from(*place)].spine = line.colour;
            }
        }
    }
}

// Fits a new book and, `times` times over, books the transfers of the bytes, issues and cancels them all again, but for the
// last time. Six bytes to a transfer: sender and receiver, low byte first, then the round and the spine, which are written.
// 0, or a refusal's number, or 255.
fn book_bytes(book: &mut Book<impl Arranger, impl Arranger>, bytes: &mut [u8], [m, n, rounds]: [u8; 3], times: u8) -> u8 {
    if bytes.len() % 6 != 0 {
        return 255;
    }
    let transfers: Vec<(u16, u16)> =
        bytes.chunks_exact(6).map(|b| (u16::from_le_bytes([b[0], b[1]]), u16::from_le_bytes([b[2], b[3]]))).collect();
    let mut fill = || -> Result<(), u8> {
        book.fit(m, n, rounds)?;
        for turn in 0..times {
            for (sender, receiver) in &transfers {
                book.book(*sender, *receiver)?;
            }
            book.issue();
            if turn + 1 < times {
                let last = book.given;
                for back in 0..transfers.len() as u16 {
                    book.cancel(last - back)?;
                }
            }
        }
        Ok(())
    };
    if let Err(number) = fill() {
        return number;
    }
    for (b, seat) in bytes.chunks_exact_mut(6).zip(&book.seats) {
        (b[4], b[5]) = (seat.round, seat.spine);
    }
    0
}

#[inline(never)]
pub fn chain_euler_book(bytes: &mut [u8], sizes: [u8; 3], times: u8) -> u8 {
    book_bytes(&mut Book::new(Chain::new(), Euler::new()), bytes, sizes, times)
}

#[inline(never)]
pub fn euler_chain_book(bytes: &mut [u8], sizes: [u8; 3], times: u8) -> u8 {
    book_bytes(&mut Book::new(Euler::new(), Chain::new()), bytes, sizes, times)
}
