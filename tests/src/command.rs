// command.rs: the commands of a tape, read from its bytes and written to them.

/// The report task takes no block of a transaction that has so many.
pub const REPORT_LIMIT: usize = 3;

/// Whose WRITE it is: that of the lamp reports, command 2, or that of the report task, byte 9 (paper 02, request h).
#[derive(Clone, Copy, PartialEq, Eq, Debug)]
pub enum Task {
    Lamp,
    Report,
}

impl Task {
    fn of(byte: u8) -> Task {
        if byte == 9 {
            Task::Report
        } else {
            Task::Lamp
        }
    }

    pub fn byte(self) -> u8 {
        match self {
            Task::Lamp => 2,
            Task::Report => 9,
        }
    }
}

#[derive(Clone, Copy, PartialEq, Eq, Debug)]
pub struct Write {
    pub task: Task,
    pub core: u8,
    pub block: u16,
    pub offset: u8,
    pub data: [u8; 4],
}

impl Write {
    /// Only called with as many operands as a WRITE takes.
    fn from_operands(task: Task, o: &[u8]) -> Write {
        let (block, data) = (u16::from_be_bytes([o[1], o[2]]), [o[4], o[5], o[6], o[7]]);
        Write { task, core: o[0], block, offset: o[3], data }
    }
}

#[derive(Clone, Copy, PartialEq, Eq, Debug)]
pub enum Command {
    Format { cores: u8, blocks: u8, journal: u8 },
    Write(Write),
    Close { core: u8 },
    Store { core: u8 },
    Checkpoint { core: u8 },
    Cut,
    Recover,
    Retire { core: u8 },
}

/// Operand bytes of a command byte; none for a byte that is no command.
pub fn operand_width(byte: u8) -> Option<usize> {
    match byte {
        1 => Some(3),
        2 | 9 => Some(8),
        3..=5 => Some(1),
        6 | 7 => Some(0),
        8 => Some(1),
        _ => None,
    }
}

/// A tape offset read: a whole command and the offset past it, or the refusal 2 or 3.
pub fn read(tape: &[u8], offset: usize) -> Result<(Command, usize), u8> {
    let Some(&byte) = tape.get(offset) else { return Err(3) };
    let Some(width) = operand_width(byte) else { return Err(2) };
    let next = offset + 1 + width;
    let Some(operands) = tape.get(offset + 1..next) else { return Err(3) };
    Ok((Command::from_parts(byte, operands), next))
}

impl Command {
    /// Only called with a known byte and as many operands as it takes.
    fn from_parts(byte: u8, o: &[u8]) -> Command {
        match byte {
            1 => Command::Format { cores: o[0], blocks: o[1], journal: o[2] },
            2 | 9 => Command::Write(Write::from_operands(Task::of(byte), o)),
            3 => Command::Close { core: o[0] },
            4 => Command::Store { core: o[0] },
            5 => Command::Checkpoint { core: o[0] },
            6 => Command::Cut,
            7 => Command::Recover,
            _ => Command::Retire { core: o[0] },
        }
    }

    pub fn write_to(&self, tape: &mut Vec<u8>) {
        match *self {
            Command::Format { cores, blocks, journal } => tape.extend([1, cores, blocks, journal]),
            Command::Write(Write { task, core, block, offset, data }) => {
                let [high, low] = block.to_be_bytes();
                tape.extend([task.byte(), core, high, low, offset]);
                tape.extend(data);
            }
            Command::Close { core } => tape.extend([3, core]),
            Command::Store { core } => tape.extend([4, core]),
            Command::Checkpoint { core } => tape.extend([5, core]),
            Command::Cut => tape.push(6),
            Command::Recover => tape.push(7),
            Command::Retire { core } => tape.extend([8, core]),
        }
    }
}

/// Every command is at least one byte and known bytes say how many follow, so hex is enough to replay a run.
pub fn hex(tape: &[u8]) -> String {
    tape.iter().map(|byte| format!("{byte:02x}")).collect()
}

/// Bytes from hex digits; blanks and bars, as the paper's tapes have them, are passed over, and comments from '#' to the line's end.
pub fn from_hex(text: &str) -> Vec<u8> {
    let lines = text.lines().filter_map(|line| line.split('#').next());
    let digits: Vec<u8> = lines.flat_map(str::chars).filter_map(|c| c.to_digit(16)).map(|d| d as u8).collect();
    digits.chunks_exact(2).map(|pair| pair[0] * 16 + pair[1]).collect()
}
