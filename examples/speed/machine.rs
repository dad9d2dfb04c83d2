// The machine of enhanced retransmission mode in plain Rust, by the same rules as `ertm_machine`. It is included by
// programs that name `MPS`, `WINDOW`, `MTU` and `TRIES`.
use std::collections::VecDeque;

const fn table() -> [u16; 256] {
    let mut table = [0u16; 256];
    let mut i = 0;
    while i < 256 {
        let mut word = i as u16;
        let mut bit = 0;
        while bit < 8 {
            word = if word & 1 == 1 { word >> 1 ^ 0xA001 } else { word >> 1 };
            bit += 1;
        }
        table[i] = word;
        i += 1;
    }
    table
}

static TABLE: [u16; 256] = table();

fn fcs16(octets: &[u8]) -> u16 {
    octets.iter().fold(0, |word, octet| word >> 8 ^ TABLE[(word as u8 ^ octet) as usize])
}

#[derive(Clone, Copy)]
enum Frame<'a> {
    I { tx: u8, last: bool, req: u8, sar: u8, total: u16, octets: &'a [u8] },
    S { kind: u8, poll: bool, last: bool, req: u8 },
}

fn word_at(octets: &[u8], place: usize) -> u16 {
    u16::from_le_bytes([octets[place], octets[place + 1]])
}

fn frame_of(pdu: &[u8], mps: usize) -> Option<Frame<'_>> {
    if pdu.len() < 8 || word_at(pdu, 0) as usize + 4 != pdu.len() {
        return None;
    }
    let end = pdu.len() - 2;
    if fcs16(&pdu[..end]) != word_at(pdu, end) {
        return None;
    }
    let control = word_at(pdu, 4);
    let body = &pdu[6..end];
    let last = control & 0x80 != 0;
    let req = (control >> 8 & 63) as u8;
    if control & 1 == 1 {
        if control & 0xC062 != 0 || !body.is_empty() {
            return None;
        }
        return Some(Frame::S { kind: (control >> 2 & 3) as u8, poll: control & 0x10 != 0, last, req });
    }
    let sar = (control >> 14) as u8;
    let (total, octets) = match sar {
        1 if body.len() < 2 => return None,
        1 => (word_at(body, 0), &body[2..]),
        _ => (0, body),
    };
    if octets.len() > mps {
        return None;
    }
    Some(Frame::I { tx: (control >> 1 & 63) as u8, last, req, sar, total, octets })
}

#[derive(Clone, Copy)]
struct Head {
    len: u16,
    sar: u8,
    total: u16,
    given: u8,
}

#[derive(Clone, Copy, PartialEq)]
enum Waiting {
    Nothing,
    Uncut,
    Begun,
}

#[derive(Clone, Copy, PartialEq)]
enum Poll {
    Nothing,
    Due,
    Waits,
}

#[derive(Clone, Copy, PartialEq)]
enum Reply {
    Nothing,
    Acknowledges,
    Rejects,
}

enum Heard<'a> {
    Nothing,
    Sdu(&'a [u8]),
    Closed,
}

struct Ertm {
    ring: VecDeque<u8>,
    heads: VecDeque<Head>,
    next: usize,
    place: usize,
    waiting: Waiting,
    first: u8,
    poll: Poll,
    polls: u8,
    busy: bool,
    expected: u8,
    polled: bool,
    reply: Reply,
    rejecting: bool,
    begun: Option<u16>,
    joined: Vec<u8>,
    closed: bool,
}

impl Ertm {
    fn new() -> Ertm {
        Ertm {
            ring: VecDeque::with_capacity(WINDOW * MPS + MTU),
            heads: VecDeque::with_capacity(WINDOW),
            next: 0,
            place: 0,
            waiting: Waiting::Nothing,
            first: 0,
            poll: Poll::Nothing,
            polls: 0,
            busy: false,
            expected: 0,
            polled: false,
            reply: Reply::Nothing,
            rejecting: false,
            begun: None,
            joined: Vec::with_capacity(MTU),
            closed: false,
        }
    }

    #[allow(dead_code)]
    fn reset(&mut self) {
        self.ring.clear();
        self.heads.clear();
        self.joined.clear();
        (self.next, self.place, self.waiting) = (0, 0, Waiting::Nothing);
        (self.first, self.poll, self.polls, self.busy) = (0, Poll::Nothing, 0, false);
        (self.expected, self.polled, self.reply, self.rejecting) = (0, false, Reply::Nothing, false);
        (self.begun, self.closed) = (None, false);
    }

    fn submit(&mut self, sdu: &[u8]) -> bool {
        if self.waiting != Waiting::Nothing {
            return false;
        }
        self.ring.extend(sdu);
        self.waiting = Waiting::Uncut;
        true
    }

    fn on_frame<'a>(&'a mut self, frame: Frame<'a>) -> Heard<'a> {
        if self.closed {
            return Heard::Closed;
        }
        let (kind, last, req) = match frame {
            Frame::I { last, req, .. } => (None, last, req),
            Frame::S { kind, last, req, .. } => (Some(kind), last, req),
        };
        let count = ((req as usize + 64 - self.first as usize) % 64) as usize;
        let again = if self.poll == Poll::Nothing { kind == Some(1) } else { last };
        let spent = |head: &Head| TRIES <= head.given;
        if self.heads.len() < count || kind == Some(3) || again && self.heads.iter().skip(count).any(spent) {
            self.closed = true;
            return Heard::Closed;
        }
        let mut up = (false, false);
        match frame {
            Frame::S { poll, .. } => self.polled |= poll,
            Frame::I { tx, sar, total, octets, .. } => {
                let steps = (tx as usize + 64 - self.expected as usize) % 64;
                if steps == 0 {
                    let fine = match (sar, self.begun) {
                        (0, None) => {
                            up = (true, false);
                            octets.len() <= MTU
                        }
                        (1, None) if octets.len() <= total as usize => {
                            self.joined.clear();
                            self.joined.extend_from_slice(octets);
                            self.begun = Some(total);
                            true
                        }
                        (2, Some(total)) if self.joined.len() + octets.len() == total as usize => {
                            self.joined.extend_from_slice(octets);
                            self.begun = None;
                            up = (true, true);
                            true
                        }
                        (3, Some(total)) if self.joined.len() + octets.len() <= total as usize => {
                            self.joined.extend_from_slice(octets);
                            true
                        }
                        _ => false,
                    };
                    if !fine {
                        self.closed = true;
                        return Heard::Closed;
                    }
                    self.expected = (self.expected + 1) % 64;
                    self.reply = Reply::Acknowledges;
                    self.rejecting = false;
                } else if steps < WINDOW && steps + WINDOW < 64 && !self.rejecting {
                    self.reply = Reply::Rejects;
                    self.rejecting = true;
                }
            }
        }
        let size: usize = self.heads.iter().take(count).map(|head| head.len as usize).sum();
        self.heads.drain(..count);
        self.ring.drain(..size);
        self.next = self.next.saturating_sub(count);
        self.place = self.place.saturating_sub(size);
        if again {
            (self.next, self.place) = (0, 0);
        }
        self.first = ((self.first as usize + count) % 64) as u8;
        if last {
            (self.poll, self.polls) = (Poll::Nothing, 0);
        }
        match kind {
            Some(0 | 1) => self.busy = false,
            Some(2) => self.busy = true,
            _ => {}
        }
        match (up, frame) {
            ((true, true), _) => Heard::Sdu(&self.joined),
            ((true, false), Frame::I { octets, .. }) => Heard::Sdu(octets),
            _ => Heard::Nothing,
        }
    }

    fn advance(&mut self) -> bool {
        if self.poll != Poll::Nothing || self.busy {
            return false;
        }
        if let Some(head) = self.heads.get_mut(self.next) {
            head.given += 1;
            self.place += head.len as usize;
            self.next += 1;
            return true;
        }
        if self.heads.len() >= WINDOW {
            return false;
        }
        let count = self.ring.len() - self.place;
        let (sar, total, len, behind) = match self.waiting {
            Waiting::Nothing => return false,
            Waiting::Uncut if count <= MPS => (0, 0, count, Waiting::Nothing),
            Waiting::Uncut => (1, count as u16, MPS - 2, Waiting::Begun),
            Waiting::Begun if count <= MPS => (2, 0, count, Waiting::Nothing),
            Waiting::Begun => (3, 0, MPS, Waiting::Begun),
        };
        self.heads.push_back(Head { len: len as u16, sar, total, given: 1 });
        self.place += len;
        self.next += 1;
        self.waiting = behind;
        true
    }

    fn next_frame(&mut self, cid: u16, into: &mut [u8]) -> Option<usize> {
        if self.closed {
            return None;
        }
        let req = (self.expected as u16) << 8;
        if self.polled {
            self.polled = false;
            return Some(put(cid, 0x81 | req, None, &[], &[], into));
        }
        let reply = std::mem::replace(&mut self.reply, Reply::Nothing);
        match reply {
            Reply::Acknowledges => return Some(put(cid, 0x01 | req, None, &[], &[], into)),
            Reply::Rejects => return Some(put(cid, 0x05 | req, None, &[], &[], into)),
            Reply::Nothing => {}
        }
        if self.poll == Poll::Due {
            self.poll = Poll::Waits;
            self.polls += 1;
            return Some(put(cid, 0x11 | req, None, &[], &[], into));
        }
        if !self.advance() {
            return None;
        }
        let head = self.heads[self.next - 1];
        let tx = (self.first as usize + self.next - 1) % 64;
        let end = self.place;
        let start = end - head.len as usize;
        let (front, back) = self.ring.as_slices();
        let (from, to) = (start.min(front.len()), end.min(front.len()));
        let control = (tx as u16) << 1 | req | (head.sar as u16) << 14;
        let total = (head.sar == 1).then_some(head.total);
        Some(put(cid, control, total, &front[from..to], &back[start - from..end - to], into))
    }
}

fn put(cid: u16, control: u16, total: Option<u16>, front: &[u8], back: &[u8], into: &mut [u8]) -> usize {
    let head = if total.is_some() { 8 } else { 6 };
    let cut = head + front.len();
    let end = cut + back.len();
    into[..2].copy_from_slice(&((end - 2) as u16).to_le_bytes());
    into[2..4].copy_from_slice(&cid.to_le_bytes());
    into[4..6].copy_from_slice(&control.to_le_bytes());
    if let Some(total) = total {
        into[6..8].copy_from_slice(&total.to_le_bytes());
    }
    into[head..cut].copy_from_slice(front);
    into[cut..end].copy_from_slice(back);
    let check = fcs16(&into[..end]);
    into[end..end + 2].copy_from_slice(&check.to_le_bytes());
    end + 2
}
