// Two hosts that push one object in plain Rust, by the rules of `object_push` for what its octets go through: the packets of
// OBEX in single response mode, SDUs in enhanced retransmission mode, ACL packets within the buffers of a controller, frames in
// the air, and a capture of every packet. Link, service search and the opening of channels are left out.
const MPS: usize = 1010;
const WINDOW: usize = 32;
const MTU: usize = 32767;
const TRIES: u8 = 10;
const OBJECT: usize = 16_777_215;
const ACL: usize = 1021;
const BUFFERS: usize = 8;

include!("../machine.rs");

/// The octets that lie in a controller, whole PDUs one behind the other.
#[derive(Default)]
struct Queue {
    octets: VecDeque<u8>,
    lengths: VecDeque<usize>,
}

impl Queue {
    fn push(&mut self, pdu: &[u8]) {
        self.octets.extend(pdu);
        self.lengths.push_back(pdu.len());
    }

    fn pop(&mut self, into: &mut Vec<u8>) -> bool {
        into.clear();
        let Some(length) = self.lengths.pop_front() else {
            return false;
        };
        into.extend(self.octets.drain(..length));
        true
    }
}

/// What a host does with its channel: it pushes the object, or stores what comes.
enum Upper {
    Pushing { place: usize, sent: bool },
    Storing { packet: Vec<u8>, answer: bool },
}

struct Host {
    upper: Upper,
    ertm: Ertm,
    /// The packets that the controller has not given back.
    outstanding: usize,
    pdu: Vec<u8>,
    placed: usize,
    joined: Vec<u8>,
    out: Vec<u8>,
}

impl Host {
    fn new(upper: Upper) -> Host {
        Host {
            upper,
            ertm: Ertm::new(),
            outstanding: 0,
            pdu: vec![0; MPS + 10],
            placed: 0,
            joined: Vec::with_capacity(MPS + 10),
            out: Vec::with_capacity(BUFFERS * (ACL + 5)),
        }
    }

    /// The next packet of the object is made in `packet`, from the octets on the shelf.
    fn step(&mut self, shelf: &[u8], packet: &mut Vec<u8>) {
        match &mut self.upper {
            Upper::Pushing { place, sent } => {
                if *sent || self.ertm.waiting != Waiting::Nothing {
                    return;
                }
                packet.clear();
                packet.extend([0x02, 0, 0]);
                if *place == 0 {
                    packet.extend([0x01, 0, 7, 0, b'a', 0, 0, 0xC3]);
                    packet.extend((OBJECT as u32).to_be_bytes());
                    packet.extend([0x97, 1]);
                }
                let count = (OBJECT - *place).min(MTU - packet.len() - 3);
                let last = *place + count == OBJECT;
                packet[0] = if last { 0x82 } else { 0x02 };
                packet.push(if last { 0x49 } else { 0x48 });
                packet.extend(((count + 3) as u16).to_be_bytes());
                packet.extend(&shelf[*place..*place + count]);
                let length = (packet.len() as u16).to_be_bytes();
                packet[1..3].copy_from_slice(&length);
                if self.ertm.submit(packet) {
                    *place += count;
                    *sent = last;
                }
            }
            Upper::Storing { answer, .. } => {
                if *answer && self.ertm.submit(&[0xA0, 0, 3]) {
                    *answer = false;
                }
            }
        }
    }

    /// It puts out what it may.
    fn put_out(&mut self, shelf: &[u8], packet: &mut Vec<u8>) {
        self.step(shelf, packet);
        while self.outstanding < BUFFERS && self.out.len() + ACL + 5 <= self.out.capacity() {
            if self.placed == 0 {
                self.pdu.resize(MPS + 10, 0);
                let Some(length) = self.ertm.next_frame(0x40, &mut self.pdu) else {
                    return;
                };
                self.pdu.truncate(length);
                self.step(shelf, packet);
            }
            let length = (self.pdu.len() - self.placed).min(ACL);
            let flag = if self.placed == 0 { 0x00 } else { 0x10 };
            self.out.extend([0x02, 0x01, flag]);
            self.out.extend((length as u16).to_le_bytes());
            self.out.extend(&self.pdu[self.placed..self.placed + length]);
            self.placed = (self.placed + length) % self.pdu.len();
            self.outstanding += 1;
        }
    }

    /// It hears one packet of its controller.
    fn hear(&mut self, unit: &[u8], inbox: &mut Vec<u8>) {
        if unit[0] == 0x04 {
            self.outstanding -= u16::from_le_bytes([unit[6], unit[7]]) as usize;
            return;
        }
        if unit[2] & 0x30 == 0x20 {
            self.joined.clear();
        }
        self.joined.extend(&unit[5..]);
        if self.joined.len() < 4 || word_at(&self.joined, 0) as usize + 4 != self.joined.len() {
            return;
        }
        let Some(frame) = frame_of(&self.joined, MPS) else {
            return;
        };
        if let (Heard::Sdu(sdu), Upper::Storing { packet, answer }) = (self.ertm.on_frame(frame), &mut self.upper) {
            packet.extend(sdu);
            while packet.len() >= 3 && packet.len() >= u16::from_be_bytes([packet[1], packet[2]]) as usize {
                let length = u16::from_be_bytes([packet[1], packet[2]]) as usize;
                *answer |= packet[0] == 0x82;
                store(&packet[3..length], inbox);
                packet.drain(..length);
            }
        }
    }
}

/// The body among the headers of a packet goes into the inbox.
fn store(mut headers: &[u8], inbox: &mut Vec<u8>) {
    while let Some(&id) = headers.first() {
        let length = match id >> 6 {
            0 | 1 => u16::from_be_bytes([headers[1], headers[2]]) as usize,
            2 => 2,
            _ => 5,
        };
        if id == 0x48 || id == 0x49 {
            inbox.extend(&headers[3..length]);
        }
        headers = &headers[length..];
    }
}

/// The length of the packet at the front.
fn unit_length(octets: &[u8]) -> usize {
    match octets[0] {
        2 => 5 + word_at(octets, 3) as usize,
        _ => 3 + octets[2] as usize,
    }
}

/// A controller: the packets of its host are joined to frames, and frames that come are cut.
#[derive(Default)]
struct Controller {
    joined: Vec<u8>,
    waiting: Queue,
}

/// All that a host put out goes to its controller, is captured, and its packets are given back.
fn take(host: &mut Host, controller: &mut Controller, trace: &mut Vec<u8>, tag: u8, into: &mut Vec<u8>) -> bool {
    let mut octets = &host.out[..];
    let mut count = 0u16;
    while !octets.is_empty() {
        let length = unit_length(octets);
        let unit = &octets[..length];
        trace.push(tag);
        trace.extend(unit);
        if unit[2] & 0x30 == 0x00 {
            controller.joined.clear();
        }
        controller.joined.extend(&unit[5..]);
        if word_at(&controller.joined, 0) as usize + 4 == controller.joined.len() {
            controller.waiting.push(&controller.joined);
        }
        count += 1;
        octets = &octets[length..];
    }
    host.out.clear();
    into.clear();
    if count > 0 {
        into.extend([0x04, 0x13, 5, 1, 1, 0]);
        into.extend(count.to_le_bytes());
    }
    count > 0
}

/// A packet goes to a host.
fn give(host: &mut Host, unit: &[u8], inbox: &mut Vec<u8>, trace: &mut Vec<u8>, tag: u8) {
    trace.push(tag);
    trace.extend(unit);
    host.hear(unit, inbox);
}

/// All moves until nothing is left to move.
fn settle(world: &mut World) {
    loop {
        let mut moved = false;
        world.a.put_out(&world.shelf, &mut world.packet);
        if take(&mut world.a, &mut world.air_ab, &mut world.trace, 0, &mut world.event) {
            give(&mut world.a, &world.event, &mut world.inbox, &mut world.trace, 1);
            moved = true;
        }
        world.b.put_out(&world.shelf, &mut world.packet);
        if take(&mut world.b, &mut world.air_ba, &mut world.trace, 2, &mut world.event) {
            give(&mut world.b, &world.event, &mut world.inbox, &mut world.trace, 3);
            moved = true;
        }
        if !moved {
            return;
        }
    }
}

struct World {
    a: Host,
    b: Host,
    air_ab: Controller,
    air_ba: Controller,
    shelf: Vec<u8>,
    inbox: Vec<u8>,
    trace: Vec<u8>,
    packet: Vec<u8>,
    event: Vec<u8>,
    frame: Vec<u8>,
    unit: Vec<u8>,
    last_ab: bool,
}

/// The front frame of one direction is delivered: of the other than last time, where both have one.
fn pass(world: &mut World) -> bool {
    let (ab, ba) = (!world.air_ab.waiting.lengths.is_empty(), !world.air_ba.waiting.lengths.is_empty());
    if !ab && !ba {
        return false;
    }
    let from_a = if ab && ba { !world.last_ab } else { ab };
    world.last_ab = from_a;
    world.trace.extend([5, 0]);
    let (air, host, tag) = if from_a { (&mut world.air_ab, &mut world.b, 3) } else { (&mut world.air_ba, &mut world.a, 1) };
    air.waiting.pop(&mut world.frame);
    for (number, piece) in world.frame.chunks(ACL).enumerate() {
        world.unit.clear();
        world.unit.extend([0x02, 0x01, if number == 0 { 0x20 } else { 0x10 }]);
        world.unit.extend((piece.len() as u16).to_le_bytes());
        world.unit.extend(piece);
        give(host, &world.unit, &mut world.inbox, &mut world.trace, tag);
    }
    settle(world);
    true
}

fn main() {
    let mut world = World {
        a: Host::new(Upper::Pushing { place: 0, sent: false }),
        b: Host::new(Upper::Storing { packet: Vec::new(), answer: false }),
        air_ab: Controller::default(),
        air_ba: Controller::default(),
        shelf: (0..OBJECT).map(|place| (place % 251) as u8).collect(),
        inbox: Vec::new(),
        trace: Vec::new(),
        packet: Vec::new(),
        event: Vec::new(),
        frame: Vec::new(),
        unit: Vec::new(),
        last_ab: false,
    };
    settle(&mut world);
    let mut passes = 0;
    while pass(&mut world) {
        passes += 1;
    }
    println!("{} octets stored, {} octets of capture, {passes} passes", world.inbox.len(), world.trace.len());
    assert!(world.inbox == world.shelf);
}
