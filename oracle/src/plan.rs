//! A plan, its file, and reply numbers 1 to 12 and 15.

use crate::Refusal;

/// Bytes of a record.
pub const RECORD: usize = 16;
/// Ordinary records that a plan may have (document 02, more constraints).
pub const ORDINARIES: usize = 1_024;
/// As many as document 01 had allowed.
pub const OLD_ORDINARIES: usize = 256;
/// Records that a plan may have.
pub const ROOM: usize = room(ORDINARIES);
/// The largest minute count in any record.
pub const BOUND: i64 = 100_000;

/// How many records of kinds 1, 2, 3 and 4 are allowed where so many ordinary ones are.
const fn allowed(ordinaries: usize) -> [usize; 4] {
    [32, 8, ordinaries, 64]
}

/// How many records are allowed in all where so many ordinary ones are.
pub const fn room(ordinaries: usize) -> usize {
    let [points, links, ordinaries, waits] = allowed(ordinaries);
    points + links + ordinaries + waits
}

/// The bytes that the table shows as 0 (byte 3 too), from and up to, for kinds 1, 2, 3 and 4.
const ZEROS: [&[(usize, usize)]; 4] = [
    &[(2, 12)],
    &[(3, 4), (12, 16)],
    &[(3, 4), (8, 16)],
    &[(3, 4), (8, 16)],
];

/// A link (A, x, y, C).
#[derive(Clone, Copy, PartialEq, Eq, Debug)]
pub struct Link {
    pub a: usize,
    pub x: i64,
    pub y: i64,
    pub c: usize,
}

/// An ordinary record (X, d, Y): Y − X ≤ d.
#[derive(Clone, Copy, PartialEq, Eq, Debug)]
pub struct Ordinary {
    pub x: usize,
    pub d: i64,
    pub y: usize,
}

/// A wait (V, C, w).
#[derive(Clone, Copy, PartialEq, Eq, Debug)]
pub struct Wait {
    pub v: usize,
    pub c: usize,
    pub w: i64,
}

/// A plan that some file holds. Only `read` and `check` make one for callers.
#[derive(Clone, Default, PartialEq, Eq, Debug)]
pub struct Plan {
    pub ponds: Vec<u32>,
    pub links: Vec<Link>,
    pub ordinary: Vec<Ordinary>,
    pub waits: Vec<Wait>,
}

impl Plan {
    /// The number of points.
    pub fn points(&self) -> usize {
        self.ponds.len()
    }

    /// The number of records.
    pub fn records(&self) -> usize {
        self.ponds.len() + self.links.len() + self.ordinary.len() + self.waits.len()
    }

    /// The link that ends at point `c`, if `c` is watched.
    pub fn link_to(&self, c: usize) -> Option<Link> {
        self.links.iter().copied().find(|link| link.c == c)
    }

    pub fn watched(&self, point: usize) -> bool {
        self.link_to(point).is_some()
    }

    /// The link of a wait. A wait of a plan always has one (number 10).
    pub fn link_of(&self, wait: &Wait) -> Link {
        self.link_to(wait.c).expect("the C of a wait is watched")
    }

    /// Adds the next record of a file where so many of each kind are allowed, or answers a number 4 to 11, or 15.
    fn add(&mut self, allowed: &[usize; 4], kind_before: u8, record: &[u8]) -> Result<(), u32> {
        let kind = record[0];
        if !(1..=4).contains(&kind) {
            return Err(4);
        }
        if kind < kind_before {
            return Err(5);
        }
        let row = usize::from(kind) - 1;
        let present = [
            self.ponds.len(),
            self.links.len(),
            self.ordinary.len(),
            self.waits.len(),
        ];
        if present[row] == allowed[row] {
            return Err(6);
        }
        for &(from, to) in ZEROS[row] {
            if record[from..to].iter().any(|&byte| byte != 0) {
                return Err(7);
            }
        }
        let one = usize::from(record[1]);
        let two = usize::from(record[2]);
        if kind == 1 {
            if one != self.points() {
                return Err(8);
            }
            self.ponds.push(unsigned(record, 12));
            return Ok(());
        }
        if one >= self.points() || two >= self.points() {
            return Err(8);
        }
        if one == two {
            return Err(9);
        }
        let first = signed(record, 4);
        let second = signed(record, 8);
        match kind {
            2 => self.add_link(Link {
                a: one,
                x: first,
                y: second,
                c: two,
            }),
            3 => self.add_ordinary(Ordinary {
                x: one,
                d: first,
                y: two,
            }),
            _ => self.add_wait(Wait {
                v: one,
                c: two,
                w: first,
            }),
        }
    }

    fn add_link(&mut self, new: Link) -> Result<(), u32> {
        // Document 02, the second truck: A may be watched, and C may start links. Only a second end is refused.
        if self.watched(new.c) {
            return Err(10);
        }
        if !(1 <= new.x && new.x < new.y && new.y <= BOUND) {
            return Err(11);
        }
        self.links.push(new);
        Ok(())
    }

    fn add_ordinary(&mut self, new: Ordinary) -> Result<(), u32> {
        // Document 02, twin records: an earlier one from the same point to the same point.
        let twin = |old: &Ordinary| (old.x, old.y) == (new.x, new.y);
        if self.ordinary.iter().any(twin) {
            return Err(15);
        }
        if !(-BOUND..=BOUND).contains(&new.d) {
            return Err(11);
        }
        self.ordinary.push(new);
        Ok(())
    }

    fn add_wait(&mut self, new: Wait) -> Result<(), u32> {
        let Some(link) = self.link_to(new.c) else {
            return Err(10);
        };
        if self.watched(new.v) || new.v == link.a {
            return Err(10);
        }
        if !(1..=link.y).contains(&new.w) {
            return Err(11);
        }
        self.waits.push(new);
        Ok(())
    }

    /// The records of the plan, in file order.
    pub fn to_records(&self) -> Vec<RawRecord> {
        let mut all = Vec::new();
        for (number, &pond) in self.ponds.iter().enumerate() {
            all.push(RawRecord {
                kind: 1,
                a: number as u8,
                code: pond,
                ..RawRecord::default()
            });
        }
        for link in &self.links {
            all.push(raw(2, link.a, link.c, link.x, link.y));
        }
        for record in &self.ordinary {
            all.push(raw(3, record.x, record.y, record.d, 0));
        }
        for wait in &self.waits {
            all.push(raw(4, wait.v, wait.c, wait.w, 0));
        }
        all
    }

    /// The plan by value; unused room is zero.
    pub fn to_raw(&self) -> RawPlan {
        RawPlan::of(&self.to_records())
    }

    /// The one file of the plan.
    pub fn to_bytes(&self) -> Vec<u8> {
        self.to_records()
            .iter()
            .flat_map(RawRecord::bytes)
            .collect()
    }
}

/// One record by value, of any content.
#[derive(Clone, Copy, Default, PartialEq, Eq, Debug)]
pub struct RawRecord {
    pub kind: u8,
    pub a: u8,
    pub b: u8,
    pub first: i32,
    pub second: i32,
    pub code: u32,
}

impl RawRecord {
    pub fn bytes(&self) -> [u8; RECORD] {
        let mut bytes = [0; RECORD];
        bytes[0] = self.kind;
        bytes[1] = self.a;
        bytes[2] = self.b;
        bytes[4..8].copy_from_slice(&self.first.to_le_bytes());
        bytes[8..12].copy_from_slice(&self.second.to_le_bytes());
        bytes[12..16].copy_from_slice(&self.code.to_le_bytes());
        bytes
    }
}

/// A plan by value, of any content.
#[derive(Clone, Debug)]
pub struct RawPlan {
    pub count: u32,
    pub records: [RawRecord; ROOM],
}

impl RawPlan {
    /// A plan without records.
    pub fn empty() -> RawPlan {
        RawPlan {
            count: 0,
            records: [RawRecord::default(); ROOM],
        }
    }

    /// A plan of these records; what has no room is left out, but counted.
    pub fn of(records: &[RawRecord]) -> RawPlan {
        let mut plan = RawPlan::empty();
        plan.count = u32::try_from(records.len()).unwrap_or(u32::MAX);
        for (place, record) in plan.records.iter_mut().zip(records) {
            *place = *record;
        }
        plan
    }

    /// The records that count.
    pub fn used(&self) -> &[RawRecord] {
        &self.records[..ROOM.min(self.count as usize)]
    }
}

/// Two plans are the same when their records are.
impl PartialEq for RawPlan {
    fn eq(&self, other: &RawPlan) -> bool {
        self.count == other.count && self.used() == other.used()
    }
}

impl Eq for RawPlan {}

/// Reads a plan file.
pub fn read(bytes: &[u8]) -> Result<Plan, Refusal> {
    read_with(ORDINARIES, bytes)
}

/// Reads a plan file where so many ordinary records are allowed: by 256 as a desk on the old reader does.
pub fn read_with(ordinaries: usize, bytes: &[u8]) -> Result<Plan, Refusal> {
    if bytes.is_empty() {
        return Err((1, 0));
    }
    if bytes.len() % RECORD != 0 {
        return Err((2, 0));
    }
    if bytes.len() / RECORD > room(ordinaries) {
        return Err((3, 0));
    }
    let allowed = allowed(ordinaries);
    let mut plan = Plan::default();
    let mut kind_before = 0;
    for (place, record) in bytes.chunks(RECORD).enumerate() {
        if let Err(number) = plan.add(&allowed, kind_before, record) {
            return Err((number, place as u32));
        }
        kind_before = record[0];
    }
    Ok(plan)
}

/// Reads a plan file into a plan by value: number, record, plan. A refused read hands back a
/// plan without records; a number 0 is no refusal.
pub fn read_by_value(bytes: &[u8]) -> (u32, u32, RawPlan) {
    match read(bytes) {
        Ok(plan) => (0, 0, plan.to_raw()),
        Err((number, record)) => (number, record, RawPlan::empty()),
    }
}

/// Tests a plan by value: the reply is the one that reading its records would give.
pub fn check(plan: &RawPlan) -> Result<Plan, Refusal> {
    if plan.count as usize > ROOM {
        return Err((3, 0));
    }
    let bytes: Vec<u8> = plan.used().iter().flat_map(RawRecord::bytes).collect();
    read(&bytes)
}

/// Writes a plan into the first bytes of a buffer: number and record, (0, 0) if written.
pub fn write(plan: &RawPlan, buffer: &mut [u8]) -> Refusal {
    let bytes = match check(plan) {
        Ok(plan) => plan.to_bytes(),
        Err(refusal) => return refusal,
    };
    if buffer.len() < bytes.len() {
        return (12, 0);
    }
    buffer[..bytes.len()].copy_from_slice(&bytes);
    (0, 0)
}

fn raw(kind: u8, a: usize, b: usize, first: i64, second: i64) -> RawRecord {
    RawRecord {
        kind,
        a: a as u8,
        b: b as u8,
        first: first as i32,
        second: second as i32,
        code: 0,
    }
}

/// The unsigned little-endian number in the four bytes from `at`.
pub(crate) fn unsigned(bytes: &[u8], at: usize) -> u32 {
    (0..4)
        .rev()
        .fold(0, |sum, i| sum << 8 | u32::from(bytes[at + i]))
}

/// The signed little-endian number in the four bytes from `at`.
fn signed(bytes: &[u8], at: usize) -> i64 {
    let number = i64::from(unsigned(bytes, at));
    if number < 1 << 31 {
        number
    } else {
        number - (1 << 32)
    }
}
