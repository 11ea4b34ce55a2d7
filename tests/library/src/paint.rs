// paint.rs: how much stack a call touches. The stack below is painted before it; afterwards the paint that is left is counted.

const PAINTED: usize = 32 * 1024;
const PAINT: u8 = 0xC7;

/// The addresses between which a call touched the stack.
pub struct Touched {
    pub lowest: usize,
    pub top: usize,
}

/// Runs a call over painted stack.
pub fn touched(call: impl FnOnce()) -> Touched {
    let start = paint();
    call();
    Touched { lowest: lowest(start), top: start + PAINTED }
}

/// Paints the stack below the caller, and tells where the painted area begins.
#[inline(never)]
fn paint() -> usize {
    let mut area = [0u8; PAINTED];
    for byte in area.iter_mut() {
        unsafe { std::ptr::write_volatile(byte, PAINT) };
    }
    area.as_ptr() as usize
}

/// The lowest address of the painted area that has not the paint any more.
#[inline(never)]
fn lowest(start: usize) -> usize {
    let at = |place: usize| unsafe { std::ptr::read_volatile((start + place) as *const u8) };
    start + (0..PAINTED).take_while(|place| at(*place) == PAINT).count()
}
