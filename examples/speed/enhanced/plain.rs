// Two machines of enhanced retransmission mode in plain Rust, and the same work: each round one SDU of 65,535 octets goes
// from one machine to another, with a window of 63 and segments of 1,010 octets.
const ROUNDS: usize = 4000;
const MPS: usize = 1010;
const WINDOW: usize = 63;
const MTU: usize = 65535;
const TRIES: u8 = 10;

include!("../machine.rs");

fn speak(from: &mut Ertm, to: &mut Ertm, into: &mut [u8; 1020]) -> usize {
    let mut octets = 0;
    while let Some(count) = from.next_frame(0x40, into) {
        if let Some(frame) = frame_of(&into[..count], MPS) {
            if let Heard::Sdu(sdu) = to.on_frame(frame) {
                octets += sdu.len();
            }
        }
    }
    octets
}

fn main() {
    let (mut a, mut b) = (Ertm::new(), Ertm::new());
    let sdu = [0x5A; MTU];
    let mut into = [0u8; 1020];
    let mut octets = 0;
    for _ in 0..ROUNDS {
        a.reset();
        b.reset();
        a.submit(&sdu);
        for _ in 0..4 {
            octets += speak(&mut a, &mut b, &mut into);
            speak(&mut b, &mut a, &mut into);
        }
    }
    println!("{octets} octets");
}
