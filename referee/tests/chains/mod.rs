//! Chains of writing calls: one writer from its opening on, to which one list
//! of packets is offered, with refused calls in between (document 01,
//! "Writer", and what it says of G).

use crate::calls::{self, some_bytes, some_packet, Call, Wish};
use crate::spoiling::{spoil, NUMBERS};
use crate::trial::{Class, Known, Tried};
use referee::modes::Line;
use referee::refusal;
use referee::rng::Rng;
use referee::writer::{self, Writer};

/// What the packets of a chain and its PDUs are like.
#[derive(Clone, Copy)]
pub struct Style {
    packets: usize,
    longest_packet: usize,
    shortest_pdu: usize,
    longest_pdu: usize,
}

/// Long packets in short PDUs, short ones in long PDUs up to the limit of
/// pieces, and others.
pub const STYLES: [Style; 8] = [
    style((5, 4_096), (96, 120)),
    style((12, 4_096), (300, 900)),
    style((300, 3), (200, 300)),
    style((600, 2), (300, 4_096)),
    style((250, 60), (96, 400)),
    style((60, 400), (96, 96)),
    style((40, 1_500), (96, 4_096)),
    style((70, 4_096), (4_000, 20_480)),
];

const fn style(packets: (usize, usize), pdus: (usize, usize)) -> Style {
    Style {
        packets: packets.0,
        longest_packet: packets.1,
        shortest_pdu: pdus.0,
        longest_pdu: pdus.1,
    }
}

/// A list of packets, sent by one writer.
pub struct Chain {
    line: Line,
    style: Style,
    packets: Vec<Vec<u8>>,
    writer: Writer,
    /// G, how many bytes of the packets joined are sent.
    sent: usize,
    /// What the pieces of the PDUs make up.
    received: Vec<Vec<u8>>,
    /// How many calls were accepted.
    accepted: usize,
}

impl Chain {
    /// A chain whose CRCs start from this register.
    pub fn new(rng: &mut Rng, line: Line, style: Style, register: u8) -> Chain {
        let packets = (0..style.packets)
            .map(|_| {
                let length = some_packet(rng, style.longest_packet);
                some_bytes(rng, usize::from(length))
            })
            .collect();
        Chain {
            line,
            style,
            packets,
            writer: writer::open_with(line.mode, line.stream, register)
                .expect("a line of the table"),
            sent: 0,
            received: vec![Vec::new(); style.packets],
            accepted: 0,
        }
    }

    /// The unfinished packet, and how many of its bytes are sent, told from G.
    fn unfinished(&self) -> (usize, usize) {
        let mut left = self.sent;
        for (index, packet) in self.packets.iter().enumerate() {
            if left < packet.len() {
                return (index, left);
            }
            left -= packet.len();
        }
        (self.packets.len(), left)
    }

    /// A right call that offers so many packets from the unfinished one on.
    fn call(&self, rng: &mut Rng, offered: usize) -> Call {
        let longest = self.style.longest_pdu.min(calls::longest(&self.line));
        let shortest = self.style.shortest_pdu;
        let (index, _) = self.unfinished();
        let packets = &self.packets[index..index + offered];
        let wish = Wish {
            line: Some(self.line),
            length: Some(rng.within(shortest, longest)),
            lengths: Some(packets.iter().map(|packet| packet.len() as u16).collect()),
            sent: Some(self.writer.sent),
            ..Wish::default()
        };
        Call {
            writer: self.writer,
            bytes: packets.concat(),
            ..Call::new(rng, &wish)
        }
    }

    /// Takes over what an accepted call did.
    fn accept(&mut self, tried: &Tried) {
        let reading = tried.reading.as_ref().expect("an accepted call");
        let (first, _) = self.unfinished();
        let word = &reading.control;
        for (k, piece) in reading.pieces.iter().enumerate() {
            let number = (usize::from(word.start) + k + 64 - usize::from(word.pfirst)) % 64;
            assert_eq!(number, (first + k) % 64);
            let bytes = &tried.pdu[piece.start..piece.start + piece.length];
            self.received[first + k].extend(bytes);
            self.sent += piece.length;
        }
        let range = usize::from(self.line.sequences);
        assert_eq!(usize::from(word.sequence), self.accepted % range);
        self.accepted += 1;
        self.writer = tried.answer.writer;
        let (index, sent) = self.unfinished();
        assert_eq!(index, first + tried.answer.ended);
        assert_eq!(usize::from(self.writer.number), index % 64);
        assert_eq!(usize::from(self.writer.sent), sent);
    }

    /// Makes calls until all packets are sent, refused ones among them.
    pub fn run(&mut self, class: &mut Class) {
        loop {
            let (index, sent) = self.unfinished();
            let left = self.packets.len() - index;
            if left == 0 {
                break;
            }
            if class.rng.below(10) == 0 {
                self.refused_call(class);
            }
            let none = sent == 0 && class.rng.below(12) == 0;
            let offered = match class.rng.below(4) {
                _ if none => 0,
                0 => class.rng.within(1, left),
                1 => class.rng.within(1, left.min(4)),
                _ => left.min(80),
            };
            let call = self.call(&mut class.rng, offered);
            let tried = class.check(&call, Known::Taken);
            self.accept(&tried);
        }
        assert_eq!(self.received, self.packets);
    }

    /// A call that is refused although the writer is right.
    fn refused_call(&self, class: &mut Class) {
        let left = self.packets.len() - self.unfinished().0;
        let offered = class.rng.within(1, left.min(3));
        let mut call = self.call(&mut class.rng, offered);
        let numbers: &[u32] = match self.line.psd_and_expansion {
            128 => &NUMBERS[1..],
            _ => &NUMBERS[1..6],
        };
        let number = numbers[class.rng.below(numbers.len())];
        if number != refusal::PACKETS {
            spoil(&mut class.rng, &mut call, number);
        } else if self.writer.sent > 0 && class.rng.below(2) == 0 {
            call.offer(&mut class.rng, Vec::new());
        } else {
            let wrong = class.rng.below(call.lengths.len());
            call.lengths[wrong] = [0, 4_097][class.rng.below(2)];
        }
        assert_eq!(call.writer, self.writer);
        class.check(&call, Known::Number(number));
    }
}
