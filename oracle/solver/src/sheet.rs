//! Document 01's network sheet with document 02's `PD`, and refusals 1 to 4.
//! Refusal 5 is about lent buffers and cannot arise here.

#[derive(Debug)]
pub struct SheetNode {
    pub at: usize,
    pub kind: u8,
    pub disabled: u8,
    pub elevation: f64,
    pub demand: f64,
    pub head: f64,
    pub max_level: f64,
    pub min_level: f64,
    pub overflow: u8,
}

#[derive(Debug)]
pub struct SheetLink {
    pub at: usize,
    pub kind: u8,
    pub check_valve: u8,
    pub status: u8,
    pub start: usize,
    pub end: usize,
    pub setting: f64,
    pub minor_loss: f64,
    pub diameter: f64,
    pub resistance: f64,
    pub flow: f64,
}

/// Document 02, [11]: in feet.
#[derive(Debug, Clone, Copy)]
pub struct Pressures {
    pub at: usize,
    pub minimum: f64,
    pub required: f64,
}

#[derive(Debug)]
pub struct Sheet {
    pub accuracy: f64,
    pub damping_limit: f64,
    pub max_flow_change: f64,
    pub trials: u16,
    pub unit: u8,
    pub pressures: Option<Pressures>,
    pub nodes: Vec<SheetNode>,
    pub links: Vec<SheetLink>,
}

#[derive(Debug, Clone, Copy, PartialEq)]
pub struct Refusal {
    pub number: u32,
    pub place: usize,
}

fn refuse<T>(number: u32, place: usize) -> Result<T, Refusal> {
    Err(Refusal { number, place })
}

/// Reads little-endian fields off the bytes of one record.
struct Fields<'a>(&'a [u8]);

impl Fields<'_> {
    fn bytes<const N: usize>(&mut self) -> [u8; N] {
        let (head, rest) = self.0.split_at(N);
        self.0 = rest;
        head.try_into().unwrap()
    }
    fn u8(&mut self) -> u8 {
        self.bytes::<1>()[0]
    }
    fn u16(&mut self) -> u16 {
        u16::from_le_bytes(self.bytes())
    }
    fn f64(&mut self) -> f64 {
        f64::from_le_bytes(self.bytes())
    }
}

const OP_BYTES: usize = 29;
const PD_BYTES: usize = 18;
const ND_BYTES: usize = 45;
const LK_BYTES: usize = 49;

/// Refusal 1 and the fields.
fn read(bytes: &[u8]) -> Result<Sheet, Refusal> {
    let mut at = 0;
    // 0: OP wanted, 1: PD, ND or LK, 2: ND or LK, 3: LK
    let mut stage = 0;
    let mut sheet = Sheet {
        accuracy: 0.0,
        damping_limit: 0.0,
        max_flow_change: 0.0,
        trials: 0,
        unit: 0,
        pressures: None,
        nodes: vec![],
        links: vec![],
    };
    if bytes.is_empty() {
        return refuse(1, 0);
    }
    while at < bytes.len() {
        let rest = &bytes[at..];
        if rest.len() < 2 {
            return refuse(1, at);
        }
        let (length, next) = match (&rest[..2], stage) {
            (b"OP", 0) => (OP_BYTES, 1),
            (b"PD", 1) => (PD_BYTES, 2),
            (b"ND", 1 | 2) => (ND_BYTES, 2),
            (b"LK", _) if stage > 0 => (LK_BYTES, 3),
            _ => return refuse(1, at),
        };
        if rest.len() < length {
            return refuse(1, at);
        }
        let mut f = Fields(&rest[2..length]);
        match &rest[..2] {
            b"OP" => {
                sheet.accuracy = f.f64();
                sheet.damping_limit = f.f64();
                sheet.max_flow_change = f.f64();
                sheet.trials = f.u16();
                sheet.unit = f.u8();
            }
            b"PD" => {
                sheet.pressures = Some(Pressures {
                    at,
                    minimum: f.f64(),
                    required: f.f64(),
                });
            }
            b"ND" => sheet.nodes.push(SheetNode {
                at,
                kind: f.u8(),
                disabled: f.u8(),
                elevation: f.f64(),
                demand: f.f64(),
                head: f.f64(),
                max_level: f.f64(),
                min_level: f.f64(),
                overflow: f.u8(),
            }),
            _ => sheet.links.push(SheetLink {
                at,
                kind: f.u8(),
                check_valve: f.u8(),
                status: f.u8(),
                start: f.u16() as usize,
                end: f.u16() as usize,
                setting: f.f64(),
                minor_loss: f.f64(),
                diameter: f.f64(),
                resistance: f.f64(),
                flow: f.f64(),
            }),
        }
        assert!(f.0.is_empty());
        at += length;
        stage = next;
    }
    Ok(sheet)
}

/// Finite and at most 2^40 in magnitude.
fn bounded(x: f64) -> bool {
    x.abs() <= (1u64 << 40) as f64
}

impl Sheet {
    /// Refusals 1 to 4, each over the whole sheet before the next.
    pub fn parse(bytes: &[u8]) -> Result<Sheet, Refusal> {
        let s = read(bytes)?;

        if !(1..=64).contains(&s.nodes.len()) {
            return refuse(2, 0);
        }
        if s.links.len() > 128 {
            return refuse(2, 1);
        }

        let op = [s.accuracy, s.damping_limit, s.max_flow_change];
        if !(op.iter().all(|&x| bounded(x))
            && s.accuracy > 0.0
            && s.damping_limit >= 0.0
            && s.max_flow_change >= 0.0
            && (1..=200).contains(&s.trials)
            && s.unit <= 10)
        {
            return refuse(3, 0);
        }
        if let Some(p) = s.pressures
            && !(bounded(p.minimum) && bounded(p.required) && p.required >= p.minimum)
        {
            return refuse(3, p.at);
        }
        for n in &s.nodes {
            let floats = [n.elevation, n.demand, n.head, n.max_level, n.min_level];
            if !(n.kind <= 2
                && n.disabled <= 1
                && n.overflow <= 1
                && floats.iter().all(|&x| bounded(x)))
            {
                return refuse(3, n.at);
            }
        }
        for l in &s.links {
            let floats = [l.setting, l.minor_loss, l.diameter, l.resistance, l.flow];
            if !(l.kind <= 6
                && l.check_valve <= 1
                && l.status <= 7
                && l.start < s.nodes.len()
                && l.end < s.nodes.len()
                && floats.iter().all(|&x| bounded(x))
                && l.minor_loss >= 0.0
                && l.resistance >= 0.0
                && (l.kind == 0 || l.diameter >= 1.0 / 1024.0))
            {
                return refuse(3, l.at);
            }
        }

        let no_unknown = |n: usize| s.nodes[n].kind != 0 || s.nodes[n].disabled == 1;
        for l in &s.links {
            if l.start == l.end
                || (l.kind == 1 && no_unknown(l.end))
                || (l.kind == 2 && no_unknown(l.start))
            {
                return refuse(4, l.at);
            }
        }
        Ok(s)
    }
}
