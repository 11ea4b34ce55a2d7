// card: core 0 writes into block 3 and commits, the power is cut, and recovery brings the bytes back.

use card_library::session::Session;

const TAPE: &[u8] = b"\x01\x02\x04\x0c\x02\x00\x00\x03\x08revD\x03\x00\x04\x00\x04\x00\x04\x00\x06\x07\x07";

fn main() {
    let (mut disk, mut memory) = (vec![0; 32_896], vec![0; 16_384]);
    let mut card = Session::blank();
    let mut at = 0;
    while at < TAPE.len() {
        let done = card.command(TAPE, at, &mut disk, &mut memory);
        println!("{at:2} command {} answer {}, {} stores", done.byte, done.number, card.stores());
        at = done.next;
    }
    match card.read_part(3, &disk, &memory) {
        Ok(bytes) => println!("block 3: {}", String::from_utf8_lossy(&bytes[8..12])),
        Err(number) => println!("block 3: refused with {number}"),
    }
}
