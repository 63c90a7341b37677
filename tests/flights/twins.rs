//! Demand 3 by runs, on the port alone: after an ending record, a craft answers as a twin does that has the same
//! configuration, wind memory and heading and another past.

use crate::document;
use crate::feeds::{Feed, Pool, WAYS, Way};
use crate::program::Program;
use crate::progress::Progress;

/// Feeds that come from one pool of records.
const FEEDS_OF_A_POOL: u64 = 10;

/// Pools whose feeds run through one process, one after the other.
const POOLS_OF_A_STREAM: u64 = 50;

/// How a wrong check goes wrong. Each has to find differences.
#[derive(Clone, Copy, PartialEq)]
enum Wrong {
    /// Nothing is wrong.
    No,
    /// Neither craft gets the ending record.
    Dropped,
    /// Both crafts get a call of kind 3 in its place.
    Sticks,
    /// The twin gets the ending record without the records that its wind memory comes from.
    WindLost,
}

const WRONGS: [(&str, Wrong, &[Way]); 3] = [
    ("ending record dropped", Wrong::Dropped, &[Way::Off, Way::Samples, Way::Shortest, Way::Primed]),
    ("ending call replaced by kind 3", Wrong::Sticks, &[Way::Off, Way::Samples, Way::Shortest]),
    ("twin without the wind memory", Wrong::WindLost, &[Way::Samples, Way::Shortest]),
];

/// What was found of one way.
#[derive(Default)]
struct Tally {
    feeds: u64,
    /// Feeds after whose ending record the wind is known.
    with_wind: u64,
    /// Records of the first lists, and of those of the twins.
    first: u64,
    twin: u64,
    answers: u64,
    differences: u64,
    feeds_that_differ: u64,
    digest: u64,
    example: Option<String>,
}

/// Compares twins on `feeds` feeds, split over the ways. Gives whether nothing differed.
pub fn run(port: &Program, feeds: u64) -> Result<bool, String> {
    let mut differences = 0;
    for (name, way) in WAYS {
        let tally = compare(port, name, way, Wrong::No, feeds.div_ceil(WAYS.len() as u64))?;
        tally.print(name);
        if let Some(example) = &tally.example {
            println!("{example}");
        }
        differences += tally.differences;
    }
    println!("{differences} differences");
    Ok(differences == 0)
}

/// The same with checks that are wrong, `feeds` feeds for each. Gives whether every one of them found differences.
pub fn run_wrong(port: &Program, feeds: u64) -> Result<bool, String> {
    let mut all_found = true;
    for (text, wrong, ways) in WRONGS {
        for (name, way) in WAYS.iter().filter(|(_, way)| ways.contains(way)) {
            let name = format!("{text}, {name}");
            let tally = compare(port, &name, *way, wrong, feeds)?;
            tally.print(&name);
            all_found &= tally.differences > 0;
        }
    }
    println!("{}", if all_found { "each was found" } else { "NOT each was found" });
    Ok(all_found)
}

fn compare(port: &Program, name: &str, way: Way, wrong: Wrong, feeds: u64) -> Result<Tally, String> {
    let mut tally = Tally::default();
    let pools = feeds.div_ceil(FEEDS_OF_A_POOL);
    let progress = Progress::new(name, pools * FEEDS_OF_A_POOL, "feeds");
    let mut seed = 0;
    while seed < pools {
        let end = pools.min(seed + POOLS_OF_A_STREAM);
        let feeds: Vec<Feed> = (seed..end).flat_map(|seed| feeds_of_a_pool(seed, way, wrong)).collect();
        let stream = |twin: bool| feeds.iter().flat_map(|feed| list(feed, twin, wrong)).flatten().copied().collect();
        let (ours, twins): (Vec<u8>, Vec<u8>) = (stream(false), stream(true));
        tally.stream(&feeds, wrong, &port.answers(&ours)?, &port.answers(&twins)?)?;
        progress.add(feeds.len() as u64);
        seed = end;
    }
    Ok(tally)
}

/// The seed is that of the pool; each way has pools of its own.
fn feeds_of_a_pool(seed: u64, way: Way, wrong: Wrong) -> Vec<Feed> {
    let place = WAYS.iter().position(|(_, other)| *other == way).expect("a way");
    let mut pool = Pool::new(1 + seed + ((place as u64) << 32));
    let mut made: Vec<Feed> = (0..FEEDS_OF_A_POOL).map(|_| pool.feed(way)).collect();
    for feed in &mut made {
        match wrong {
            Wrong::Sticks => feed.ending = pool.sticks(&feed.ending),
            Wrong::WindLost => feed.twin.truncate(1),
            _ => {}
        }
    }
    made
}

/// All records that a craft or its twin gets.
fn list<'a>(feed: &'a Feed, twin: bool, wrong: Wrong) -> impl Iterator<Item = &'a Vec<u8>> {
    let before = if twin { &feed.twin } else { &feed.first };
    let ending = (wrong != Wrong::Dropped).then_some(&feed.ending);
    before.iter().chain(ending).chain(&feed.last)
}

impl Tally {
    /// Takes in what the port wrote for the feeds and for their twins.
    fn stream(&mut self, feeds: &[Feed], wrong: Wrong, ours: &[u8], twins: &[u8]) -> Result<(), String> {
        let (mut ours, mut twins) = (document::answers(ours), document::answers(twins));
        for feed in feeds {
            accepted(&feed.first, &mut ours)?;
            accepted(&feed.twin, &mut twins)?;
            if wrong != Wrong::Dropped {
                accepted(std::slice::from_ref(&feed.ending), &mut ours)?;
                accepted(std::slice::from_ref(&feed.ending), &mut twins)?;
            }
            self.last_list(feed, &mut ours, &mut twins);
        }
        match (ours.next(), twins.next()) {
            (None, None) => Ok(()),
            _ => Err("answers go on after the last record".into()),
        }
    }

    fn last_list<'a>(
        &mut self,
        feed: &Feed,
        ours: &mut impl Iterator<Item = &'a [u8]>,
        twins: &mut impl Iterator<Item = &'a [u8]>,
    ) {
        let before = self.differences;
        for (index, record) in feed.last.iter().enumerate() {
            let (ours, twin) = (ours.next().unwrap_or_default(), twins.next().unwrap_or_default());
            self.answers += 1;
            self.digest = document::digest(self.digest, ours);
            self.with_wind += u64::from(index == 0 && ours.first() == Some(&document::WIND_KNOWN));
            if ours != twin {
                self.differences += 1;
                self.example.get_or_insert_with(|| example(feed, index, record, ours, twin));
            }
        }
        self.feeds += 1;
        self.first += feed.first.len() as u64;
        self.twin += feed.twin.len() as u64;
        self.feeds_that_differ += u64::from(self.differences > before);
    }

    fn print(&self, name: &str) {
        let Tally { feeds, with_wind, first, twin, answers, differences, feeds_that_differ, digest, .. } = self;
        println!(
            "{name}: {feeds} feeds ({with_wind} with a known wind), {first} records before the ending one, {twin} in \
             the twins, {answers} later answers, {differences} differences in {feeds_that_differ} feeds, \
             digest {digest:016x}"
        );
    }
}

/// Passes over the answers to a list. The port has to have refused what document 01 refuses of a configured craft, no
/// more and no less: whether a record counts for the wind memory hangs on it.
fn accepted<'a>(list: &[Vec<u8>], answers: &mut impl Iterator<Item = &'a [u8]>) -> Result<(), String> {
    for record in list {
        let answer = answers.next().unwrap_or_default();
        let refusal = document::refusal(record, true);
        let right = match refusal {
            Some(refusal) => answer == refusal,
            None => answer.first().is_some_and(|number| *number != document::REFUSAL),
        };
        if !right {
            let (record, answer) = (document::hexadecimal(record), document::hexadecimal(answer));
            return Err(format!("record {record} is answered {answer}, document 01 has {refusal:?}"));
        }
    }
    Ok(())
}

/// A feed with a difference, whole, so that it can be fed again.
fn example(feed: &Feed, index: usize, record: &[u8], ours: &[u8], twin: &[u8]) -> String {
    let list = |records: &[Vec<u8>]| document::hexadecimal(&records.concat());
    let [record, ours, answer] = [record, ours, twin].map(document::hexadecimal);
    format!(
        "  first list: {}\n  twin's:     {}\n  ending:     {}\n  last list, record {} of {}: {record}\n  \
         answer:     {ours}\n  twin's:     {answer}",
        list(&feed.first),
        list(&feed.twin),
        document::hexadecimal(&feed.ending),
        index + 1,
        feed.last.len(),
    )
}
