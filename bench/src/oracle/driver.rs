//! Runs openjp2 on a sheet and gives all that it answers.

use std::hint::black_box;

use crate::event;
use crate::fault;
use crate::iterators::Iterators;
use crate::sheet::{Packet, Reports, Sheet};
use crate::tile::Tile;

/// What openjp2 gives for a sheet.
#[derive(Clone, Debug)]
pub struct Run {
    pub bounds: [u32; 4],
    pub reports: Reports,
    /// pdx, pdy, width and height of each resolution, component after component.
    pub table: Vec<[u32; 4]>,
    /// All progressions in turn, each up to its first 0.
    pub packets: Vec<Packet>,
    /// The include marks left, without the extra layer that openjp2 allocates.
    pub marks: Vec<u8>,
    /// Marks left in that extra layer.
    pub marks_beyond: usize,
    pub ending: Ending,
    /// The last message sent while walking.
    pub message: Option<&'static str>,
}

/// How a run ended.
#[derive(Clone, Debug, PartialEq)]
pub enum Ending {
    /// Every walk answered 0.
    Whole,
    /// There were more packets than asked for, or than the sheet has marks.
    Stopped,
    /// A check of the build with overflow checks stopped it.
    Fault(String),
}

/// Runs a sheet of document 01's ranges. Outside 01's domain it may never end: ask `domain` first.
pub fn run(sheet: &Sheet) -> Run {
    run_to(sheet, usize::MAX)
}

/// Runs a sheet until there are more packets than this.
pub fn run_to(sheet: &Sheet, most_packets: usize) -> Run {
    let mut tile = Tile::of(sheet);
    let parameters = tile.parameters();
    let mut iterators = match Iterators::create(&mut tile) {
        Some(iterators) => iterators,
        None => Iterators::create_without_marks(&mut tile),
    };
    assert_eq!(iterators.table(), parameters.table, "openjp2 copies its own table wrongly");
    event::take_last_message();

    let limit = iterators.include().len().min(most_packets);
    let mut packets = Vec::new();
    let walked = fault::caught(|| {
        iterators.walk(|packet| {
            packets.push(packet);
            packets.len() <= limit
        })
    });
    let ending = match walked {
        Ok(true) => Ending::Whole,
        Ok(false) => Ending::Stopped,
        Err(fault) => Ending::Fault(fault),
    };

    let include = iterators.include();
    let (marks, beyond) = include.split_at(include.len() - iterators.layer_stride());
    Run {
        bounds: parameters.bounds,
        reports: parameters.reports,
        table: parameters.table,
        packets,
        marks: marks.iter().map(|&mark| mark as u8).collect(),
        marks_beyond: beyond.iter().filter(|&&mark| mark != 0).count(),
        ending,
        message: event::take_last_message(),
    }
}

/// Runs a sheet, and calls its first progression once more after its 0: the packet that it answers then, or what it said when it
/// faulted. Outside 01's domain: it may never end.
pub fn called_after_0(sheet: &Sheet) -> Result<Option<Packet>, String> {
    let mut tile = Tile::of(sheet);
    let mut iterators = Iterators::create(&mut tile).ok_or("no marks are needed")?;
    fault::caught(|| {
        iterators.walk(|_| true);
        iterators.next_of_first()
    })
}

/// A sheet made ready for timing: openjp2's records are filled before the clock starts.
pub struct Timed(Tile);

impl Timed {
    pub fn new(sheet: &Sheet) -> Timed {
        Timed(Tile::of(sheet))
    }

    /// Creates the iterators, walks them all, destroys them, and answers the number of packets.
    pub fn create_walk_destroy(&mut self) -> usize {
        let mut count = 0;
        if let Some(mut iterators) = Iterators::create(&mut self.0) {
            iterators.walk(|packet| {
                black_box(packet);
                count += 1;
                true
            });
        }
        count
    }

    /// Creates and destroys the iterators only.
    pub fn create_destroy(&mut self) -> bool {
        black_box(Iterators::create(&mut self.0)).is_some()
    }
}
