//! Plays drawn sessions and checks every answer while it plays.

use crate::calls::{Call, Counts, Player, Side};
use crate::chance::Chance;
use crate::dijkstra::distances;
use crate::model::{is_sound, neighbour, search_with_log, Answer, Session, Step, Tables, SHUT};
use crate::rounds::{opened, play_long, play_long_with_doors, play_round};

/// Searches and checks all that the paper promises: the way, its cost, "none", the number and the kinds
/// of the steps, the search number, and sound tables afterwards. It panics if a promise is broken.
pub fn checked_search(session: &Session, tables: &mut Tables, way: &mut [u16], log: &mut Vec<(Step, u16)>) -> (Answer, Session) {
    let tables_before = tables.clone();
    let way_before = way.to_vec();
    let (answer, after) = search_with_log(session, tables, way, log);

    // Each kind of step happens at most once on each cell, so there are at most 3N steps.
    let mut sorted = log.clone();
    sorted.sort();
    sorted.dedup();
    assert_eq!(sorted.len(), log.len(), "a step was taken twice on one cell");
    assert!(log.len() <= 3 * tables.g.len());

    let written = match answer {
        Answer::Accepted => panic!("a search never answers just accepted"),
        Answer::Refused(9) => panic!("sound tables were not searched within 3N steps"),
        Answer::Refused(_) | Answer::Caught { .. } => {
            assert_eq!(*session, after);
            assert_eq!(tables_before, *tables);
            if let Answer::Caught { cell } = answer {
                assert_eq!((cell, session.target, way[0] as u64), (session.hunter, cell, cell));
                1
            } else {
                0
            }
        }
        Answer::None { .. } | Answer::Way { .. } => {
            assert_eq!(tables_before.plan, tables.plan, "a search never writes the plan");
            assert_eq!((after.origin, after.goal), (session.hunter, session.target));
            assert_eq!((after.hunter, after.target), (session.hunter, session.target));
            assert!(after.searches == session.searches + 1 || after.searches == 1);
            assert!(is_sound(&after, tables), "tables not sound after a search");
            let far = distances(session.width, session.height, &tables.plan, session.hunter as usize);
            match (answer, far[session.target as usize]) {
                (Answer::None { steps }, None) => {
                    assert_eq!(steps, log.len() as u64);
                    0
                }
                (Answer::Way { cost, steps, length }, Some(least)) => {
                    assert_eq!((steps, cost as u64), (log.len() as u64, least));
                    check_way(session, tables, &way[..length], least);
                    length
                }
                (answer, least) => panic!("{:?} against Dijkstra's {:?}", answer, least),
            }
        }
    };
    assert_eq!(way_before[written..], way[written..], "the rest of the way list keeps its contents");
    (answer, after)
}

/// Checks that the way leads from hunter to target over open moves and has the cost.
fn check_way(session: &Session, tables: &Tables, way: &[u16], cost: u64) {
    assert_eq!(way[0] as u64, session.hunter);
    assert_eq!(way[way.len() - 1] as u64, session.target);
    let mut paid = 0;
    for pair in way.windows(2) {
        let direction = (0..4)
            .find(|&d| neighbour(session.width, session.height, pair[0] as usize, d) == Some(pair[1] as usize))
            .expect("the cells of a way are neighbours");
        let byte = tables.plan[4 * pair[0] as usize + direction];
        assert!(byte != SHUT, "a shut move on the way");
        paid += byte as u64;
    }
    assert_eq!(paid, cost);
}

/// The model by itself, with all that the paper promises checked at every call.
struct Checked {
    side: Side,
    log: Vec<(Step, u16)>,
    counts: Counts,
}

impl Checked {
    /// Takes a side to play on.
    fn new(side: Side) -> Checked {
        Checked { side, log: Vec::new(), counts: Counts::default() }
    }

    /// One search, checked.
    fn search(&mut self) -> Answer {
        let Side { session, tables, way } = &mut self.side;
        let (answer, after) = checked_search(session, tables, way, &mut self.log);
        *session = after;
        answer
    }
}

impl Player for Checked {
    fn side(&self) -> &Side {
        &self.side
    }

    /// Makes the call: a refusal leaves all as it was, and open's a record of zeros; any other answer leaves sound tables.
    fn play(&mut self, call: Call) -> Answer {
        let mut before = self.side.clone();
        let answer = if let Call::Search = call { self.search() } else { self.side.by_model(call) };
        self.counts.note(&answer, before.session.searches, self.side.session.searches);
        if let Answer::Refused(_) = answer {
            if let Call::Open { .. } = call {
                before.session = Session::default();
            }
            assert_eq!(before, self.side, "a refusal that changed something");
        } else {
            assert!(is_sound(&self.side.session, &self.side.tables), "tables not sound after an accepted call");
        }
        answer
    }

    fn everywhere(&mut self, done: impl Fn(&mut Side)) {
        done(&mut self.side);
    }

    /// There is one side only.
    fn level(&mut self) {}
}

/// What was played, and on how many cells.
pub struct Played {
    pub cells: u64,
    pub counts: Counts,
}

/// Draws the size of a session: of every twelve some at the edges, and else small ones.
fn draw_size(chance: &mut Chance, index: u64) -> (u64, u64) {
    let mut side = |least, sides| least + chance.draw(sides);
    match index % 12 {
        0 => (1, 1),
        1 => (1, 64),
        2 => (64, 1),
        3 => (64, 64),
        6 => (side(2, 2), side(2, 2)),
        11 => (side(1, 64), side(1, 64)),
        _ => (side(1, 12), side(1, 12)),
    }
}

/// Plays the session of an index in the run of a seed. Of every twelve two are long.
pub fn play(seed: u64, index: u64) -> Played {
    let mut chance = Chance::start(seed, index);
    let (width, height) = draw_size(&mut chance, index);
    let range = [1, 3, 250][chance.draw(3) as usize];
    let player = match index % 12 {
        6 => play_long(&mut chance, width, height, range, Checked::new),
        7 => play_long_with_doors(&mut chance, width, height, range, Checked::new),
        kind => {
            let mut player = opened(&mut chance, width, height, range, Checked::new);
            for _ in 0..if kind == 3 || kind == 11 { 60 } else { 150 } {
                play_round(&mut chance, &mut player, range);
            }
            player
        }
    };
    Played { cells: width * height, counts: player.counts }
}
