//! A sheet's fields, and its words as document 01 lays them out. Nothing here judges a sheet.

/// The fields of a whole sheet.
#[derive(Clone, Debug, PartialEq)]
pub struct Sheet {
    pub tx0: u32,
    pub ty0: u32,
    pub tx1: u32,
    pub ty1: u32,
    pub layers: u32,
    pub components: Vec<Component>,
    pub progressions: Progressions,
}

#[derive(Clone, Debug, PartialEq)]
pub struct Component {
    pub dx: u32,
    pub dy: u32,
    /// pdx and pdy of each resolution, lowest first.
    pub resolutions: Vec<(u32, u32)>,
}

/// All of kinds 4 and 6, or one of kind 5.
#[derive(Clone, Debug, PartialEq)]
pub enum Progressions {
    Ranges(Vec<Range>),
    WholeTile(i32),
}

/// A progression of kind 4 or 6.
#[derive(Clone, Copy, Debug, PartialEq)]
pub struct Range {
    pub prg: i32,
    pub resno0: u32,
    pub compno0: u32,
    pub layno1: u32,
    pub resno1: u32,
    pub compno1: u32,
    /// Of kind 6: its steps need not divide one another.
    pub mixed: bool,
}

/// One record of 32 bytes.
pub type Record = [u32; 8];

/// A packet: layer, resolution, component, precinct.
pub type Packet = [u32; 4];

/// What setup reports beside the table.
#[derive(Clone, Copy, Debug, PartialEq)]
pub struct Reports {
    pub max_prec: u32,
    pub max_res: u32,
    pub dx_min: u32,
    pub dy_min: u32,
}

impl Reports {
    pub fn words(&self) -> [u32; 4] {
        [self.max_prec, self.max_res, self.dx_min, self.dy_min]
    }
}

impl Progressions {
    pub fn count(&self) -> usize {
        match self {
            Progressions::Ranges(ranges) => ranges.len(),
            Progressions::WholeTile(_) => 1,
        }
    }

    /// Whether one is of kind 6.
    pub fn any_mixed(&self) -> bool {
        matches!(self, Progressions::Ranges(ranges) if ranges.iter().any(|range| range.mixed))
    }

    /// The order number of each progression.
    pub fn orders(&self) -> Vec<i32> {
        match self {
            Progressions::Ranges(ranges) => ranges.iter().map(|range| range.prg).collect(),
            Progressions::WholeTile(prg) => vec![*prg],
        }
    }
}

impl Sheet {
    pub fn records(&self) -> Vec<Record> {
        let components = self.components.len() as u32;
        let progressions = self.progressions.count() as u32;
        let mut records =
            vec![[1, self.tx0, self.ty0, self.tx1, self.ty1, self.layers, components, progressions]];
        for component in &self.components {
            let count = component.resolutions.len() as u32;
            records.push([2, component.dx, component.dy, count, 0, 0, 0, 0]);
            records.extend(component.resolutions.iter().map(|&(pdx, pdy)| [3, pdx, pdy, 0, 0, 0, 0, 0]));
        }
        match &self.progressions {
            Progressions::WholeTile(prg) => records.push([5, *prg as u32, 0, 0, 0, 0, 0, 0]),
            Progressions::Ranges(ranges) => records.extend(ranges.iter().map(|range| {
                let Range { prg, resno0, compno0, layno1, resno1, compno1, mixed } = *range;
                [if mixed { 6 } else { 4 }, prg as u32, resno0, compno0, layno1, resno1, compno1, 0]
            })),
        }
        records
    }

    pub fn bytes(&self) -> Vec<u8> {
        bytes_of(&self.records())
    }
}

pub fn bytes_of(records: &[Record]) -> Vec<u8> {
    records.iter().flatten().flat_map(|word| word.to_be_bytes()).collect()
}

/// A sheet in words as the documents print it: one line a record, zeros at the end omitted; what is no
/// whole record follows as bytes.
pub fn in_words(bytes: &[u8]) -> String {
    let records = bytes.chunks_exact(32);
    let rest = records.remainder();
    let mut lines: Vec<String> = records.map(record_in_words).collect();
    if !rest.is_empty() || bytes.is_empty() {
        lines.push(format!("and {} bytes {rest:02x?}", rest.len()));
    }
    lines.join("\n")
}

fn record_in_words(record: &[u8]) -> String {
    let words: Vec<u32> =
        record.chunks_exact(4).map(|word| u32::from_be_bytes(word.try_into().unwrap())).collect();
    let used = words.iter().rposition(|&word| word != 0).map_or(1, |last| last + 1);
    words[..used].iter().map(u32::to_string).collect::<Vec<_>>().join(" ")
}
