//! The drill file and its runner: a file taken apart, written, and run, which gives the lines it prints.

use crate::model::{cells_of, change, open, place_hunter, place_target, plan_refusal, search, Answer, Session, Tables};

/// The length of the trailer and of one action, and the greatest length of a file.
pub const TRAILER: usize = 12;
pub const ACTION: usize = 5;
pub const GREATEST_FILE: usize = 65_536;

/// One action of the file, as it stands there.
#[derive(Clone, Copy, Debug, PartialEq, Eq)]
pub struct Action {
    pub kind: u8,
    pub cell: u16,
    pub direction: u8,
    pub cost: u8,
}

impl Action {
    fn read(bytes: &[u8]) -> Action {
        Action {
            kind: bytes[0],
            cell: bytes[1] as u16 + 256 * bytes[2] as u16,
            direction: bytes[3],
            cost: bytes[4],
        }
    }

    /// Writes the action in its five bytes.
    pub fn write(&self, bytes: &mut Vec<u8>) {
        bytes.push(self.kind);
        bytes.extend_from_slice(&self.cell.to_le_bytes());
        bytes.push(self.direction);
        bytes.push(self.cost);
    }

    fn well_formed(&self) -> bool {
        match self.kind {
            1 => true,
            2 | 3 => self.direction == 0 && self.cost == 0,
            4 => self.cell == 0 && self.direction == 0 && self.cost == 0,
            _ => false,
        }
    }
}

/// Is each action well formed? Bytes that are left over are no action.
fn all_well_formed(actions: &[u8]) -> bool {
    actions.chunks(ACTION).all(|bytes| bytes.len() == ACTION && Action::read(bytes).well_formed())
}

/// What the trailer tells, in its order.
#[derive(Clone, Copy, Debug, PartialEq, Eq)]
pub struct Trailer {
    pub width: u8,
    pub height: u8,
    pub hunter: u16,
    pub target: u16,
    pub actions: u16,
    pub offset: u32,
}

impl Trailer {
    /// The trailer of a file, unless the file is shorter than one or longer than a drill may be.
    pub fn of(file: &[u8]) -> Option<Trailer> {
        if file.len() < TRAILER || file.len() > GREATEST_FILE {
            return None;
        }
        let bytes = &file[file.len() - TRAILER..];
        let two = |at: usize| u16::from_le_bytes([bytes[at], bytes[at + 1]]);
        Some(Trailer {
            width: bytes[0],
            height: bytes[1],
            hunter: two(2),
            target: two(4),
            actions: two(6),
            offset: two(8) as u32 + 65_536 * two(10) as u32,
        })
    }

    /// The twelve bytes, the low byte of each number first.
    fn write(&self, bytes: &mut Vec<u8>) {
        bytes.push(self.width);
        bytes.push(self.height);
        for number in [self.hunter, self.target, self.actions] {
            bytes.extend_from_slice(&number.to_le_bytes());
        }
        bytes.extend_from_slice(&self.offset.to_le_bytes());
    }
}

/// A drill in its parts. The actions are bytes, five for each action.
#[derive(Clone, Debug, Default, PartialEq, Eq)]
pub struct Drill {
    pub width: u64,
    pub height: u64,
    pub hunter: u64,
    pub target: u64,
    pub plan: Vec<u8>,
    pub actions: Vec<u8>,
}

impl Drill {
    /// How long the drill's file is.
    pub fn length(&self) -> usize {
        self.plan.len() + self.actions.len() + TRAILER
    }

    /// The file of a drill that the writer does not refuse: plan, actions, trailer.
    pub fn file(&self) -> Vec<u8> {
        let mut file = [&self.plan[..], &self.actions].concat();
        let short = |number: u64| u16::try_from(number).expect("two bytes hold every cell and every number of actions");
        let trailer = Trailer {
            width: self.width as u8,
            height: self.height as u8,
            hunter: short(self.hunter),
            target: short(self.target),
            actions: short((self.actions.len() / ACTION) as u64),
            offset: self.plan.len() as u32,
        };
        trailer.write(&mut file);
        file
    }

    /// The number by which open refuses the drill's size, plan, hunter and target, or 0.
    fn open_refusal(&self) -> u8 {
        plan_refusal(self.width, self.height, self.hunter, self.target, &self.plan)
    }
}

/// Writes a drill into a room of so many bytes: gives the file, or the number by which drill or room is refused.
pub fn write(drill: &Drill, room: usize) -> Result<Vec<u8>, u8> {
    match drill.open_refusal() {
        0 if !all_well_formed(&drill.actions) || drill.length() > GREATEST_FILE => Err(8),
        0 if room < drill.length() => Err(7),
        0 => Ok(drill.file()),
        number => Err(number),
    }
}

/// Takes a file apart as its trailer tells, or gives the number by which it is refused before a look at its actions.
pub fn taken_apart(file: &[u8]) -> Result<Drill, u8> {
    let trailer = Trailer::of(file).ok_or(8u8)?;
    let (width, height) = (trailer.width as u64, trailer.height as u64);
    let offset = 4 * cells_of(width, height).ok_or(1u8)?;
    if trailer.offset as usize != offset || file.len() != offset + ACTION * trailer.actions as usize + TRAILER {
        return Err(8);
    }
    Ok(Drill {
        width,
        height,
        hunter: trailer.hunter as u64,
        target: trailer.target as u64,
        plan: file[..offset].to_vec(),
        actions: file[offset..file.len() - TRAILER].to_vec(),
    })
}

/// Takes a well-formed file apart, or gives the number of its form.
pub fn formed(file: &[u8]) -> Result<Drill, u8> {
    let drill = taken_apart(file)?;
    if all_well_formed(&drill.actions) {
        Ok(drill)
    } else {
        Err(8)
    }
}

/// Reads a file: gives the drill, or the number by which the file is refused.
pub fn read(file: &[u8]) -> Result<Drill, u8> {
    let drill = formed(file)?;
    match drill.open_refusal() {
        0 => Ok(drill),
        number => Err(number),
    }
}

/// Runs a whole drill file and gives everything it prints, each line ended by one line feed.
pub fn run(file: &[u8]) -> String {
    match read(file) {
        Ok(drill) => play(drill),
        Err(number) => format!("refused {}\n", number),
    }
}

/// Plays a drill that was read, and gives its lines.
fn play(drill: Drill) -> String {
    let mut lines = String::new();
    play_seen(drill, |_, _, answer, way| lines.push_str(&line_of(answer, way)));
    lines
}

/// Plays a drill that was read, and shows each action's record, plan, answer and way list.
pub fn play_seen(drill: Drill, mut seen: impl FnMut(&Session, &[u8], &Answer, &[u16])) {
    let cells = drill.plan.len() / 4;
    let mut tables = Tables::filled(drill.plan, cells, 0);
    let mut way = vec![0u16; cells];
    let (answer, mut session) = open(drill.width, drill.height, drill.hunter, drill.target, &mut tables);
    assert_eq!(answer, Answer::Accepted, "open takes a drill that was read");
    for action in drill.actions.chunks(ACTION).map(Action::read) {
        let (answer, after) = act(&session, &mut tables, &mut way, &action);
        session = after;
        seen(&session, &tables.plan, &answer, &way);
    }
}

fn act(session: &Session, tables: &mut Tables, way: &mut [u16], action: &Action) -> (Answer, Session) {
    match action.kind {
        1 => change(session, tables, action.cell as u64, action.direction, action.cost),
        2 => place_hunter(session, action.cell as u64),
        3 => place_target(session, action.cell as u64),
        _ => search(session, tables, way),
    }
}

/// The line of an answer with its line feed; an accepted action prints nothing.
pub fn line_of(answer: &Answer, way: &[u16]) -> String {
    match *answer {
        Answer::Accepted => String::new(),
        Answer::Way { cost, steps, length } => {
            let mut line = format!("way {} steps {}:", cost, steps);
            for cell in &way[..length] {
                line.push_str(&format!(" {}", cell));
            }
            line.push('\n');
            line
        }
        Answer::None { steps } => format!("none steps {}\n", steps),
        Answer::Caught { cell } => format!("caught at {}\n", cell),
        Answer::Refused(number) => format!("refused {}\n", number),
    }
}
