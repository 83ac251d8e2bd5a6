//! The configuration: channels, service flows and stations.
//!
//! Keys, ranges and channels that are named are looked at. What else makes a configuration unlawful, as a SID that two
//! flows have, isn't.

use crate::bursts::Profile;
use crate::toml::{self, Table, Value};
use crate::Fault;

const MOST_US: u32 = 10_000_000;
const MOST_RATE: u32 = 1_000_000_000;
const MOST_SID: u32 = 15_871;
/// Quarter microseconds, in which times are counted, in a microsecond.
const QUARTERS: u32 = 4;

pub struct Config {
    pub round_ticks: u32,
    pub lead_ticks: u32,
    pub channels: Vec<Channel>,
    pub flows: Vec<Flow>,
    pub stations: Vec<Station>,
}

pub struct Channel {
    pub id: u8,
    pub minislot_log2: u32,
    /// Minislots of a MAP.
    pub len: u32,
    pub ucd_count: u8,
    /// Start and end of ranging, start and end of data.
    pub backoffs: [u8; 4],
    pub request_minislots: u32,
    pub contention_minislots: u32,
    pub maintenance_minislots: u32,
    pub maintenance_every: u32,
    pub station_minislots: u32,
    /// Symbols of a minislot, as a power of two.
    pub symbols_log2: u32,
    pub long: Profile,
    pub short: Profile,
    /// The most minislots of a short grant.
    pub short_max: u32,
    pub unsolicited: Profile,
}

/// Scheduling types.
#[derive(Clone, Copy, PartialEq)]
pub enum Type {
    BestEffort,
    NonRealTimePolling,
    RealTimePolling,
    ActivityDetection,
    Unsolicited,
}

/// When intervals begin, how long they are, and how late a grant or a poll may start: in quarter microseconds.
#[derive(Clone, Copy)]
pub struct Times {
    pub start: u32,
    pub interval: u32,
    pub jitter: u32,
}

/// What a flow that makes requests has.
pub struct Requests {
    pub priority: u32,
    pub rate: u32,
    pub burst: u32,
    pub min_rate: u32,
    pub unit: u32,
    pub headers: bool,
}

/// What a flow with unsolicited grants has.
pub struct Grants {
    pub bytes: u32,
    pub per_interval: u32,
}

pub enum Service {
    Requests(Requests),
    Grants(Grants),
}

pub struct Flow {
    pub id: u32,
    pub kind: Type,
    /// Places of channels.
    pub channels: Vec<usize>,
    /// SIDs by channel of each SID cluster.
    pub clusters: Vec<Vec<u32>>,
    pub service: Service,
    /// Of all types but best effort.
    pub times: Option<Times>,
}

pub struct Station {
    pub id: u32,
    pub channel: usize,
    pub sid: u32,
    pub times: Times,
}

/// The configuration that a text spells.
pub fn read(text: &[u8]) -> Result<Config, Fault> {
    let mut tables = toml::tables(text)?.into_iter();
    let mut top = tables.next().expect("the top level stands there");
    let round_ticks = top.number("round_ticks", 1..=4_096)?;
    let lead_ticks = top.number("lead_ticks", 1..=65_536)?;
    top.end()?;
    let mut config = Config { round_ticks, lead_ticks, channels: Vec::new(), flows: Vec::new(), stations: Vec::new() };
    let (channels, others): (Vec<_>, Vec<_>) = tables.partition(|table| table.name == "channel");
    for table in channels {
        config.channels.push(channel(table, round_ticks)?);
    }
    if !(1..=16).contains(&config.channels.len()) {
        return Err("1 to 16 channels are wanted".into());
    }
    for table in others {
        match table.name {
            "flow" => config.flows.push(flow(table, &config.channels)?),
            "station" => config.stations.push(station(table, &config.channels)?),
            _ => return table.fault("a header that isn't known"),
        }
    }
    if config.flows.len() > 1_024 || config.stations.len() > 256 {
        return Err("at most 1,024 flows and 256 stations are wanted".into());
    }
    Ok(config)
}

fn channel(mut table: Table, round_ticks: u32) -> Result<Channel, Fault> {
    let mut short = table.table("short")?;
    let minislot_log2 = table.number("minislot_log2", 0..=7)?;
    let found = Channel {
        id: table.number("id", 1..=255)? as u8,
        minislot_log2,
        len: round_ticks >> minislot_log2,
        ucd_count: table.number("ucd_count", 0..=255)? as u8,
        backoffs: backoffs(&mut table)?,
        request_minislots: table.number("request_minislots", 1..=64)?,
        contention_minislots: table.number("contention_minislots", 0..=4_096)?,
        maintenance_minislots: table.number("maintenance_minislots", 0..=4_096)?,
        maintenance_every: table.number("maintenance_every", 1..=65_536)?,
        station_minislots: table.number("station_minislots", 1..=64)?,
        symbols_log2: minislot_log2 + table.number("rate_log2", 0..=5)?,
        long: profile(table.table("long")?)?,
        short_max: short.number("max_minislots", 1..=255)?,
        short: profile(short)?,
        unsolicited: profile(table.table("unsolicited")?)?,
    };
    if found.len << minislot_log2 != round_ticks {
        return table.fault("round_ticks isn't a multiple of the minislot");
    }
    if found.contention_minislots + found.maintenance_minislots > found.len {
        return table.fault("reserves are longer than the MAP");
    }
    table.end()?;
    Ok(found)
}

/// Start and end of ranging, start and end of data.
fn backoffs(table: &mut Table) -> Result<[u8; 4], Fault> {
    let mut found = [0; 4];
    for (pair, key) in found.chunks_mut(2).zip(["ranging_backoff", "data_backoff"]) {
        let numbers = toml::numbers(&table.list(key)?, 0..=15)?;
        let [start, end] = numbers[..] else { return table.fault("a backoff has not two numbers") };
        pair.copy_from_slice(&[start as u8, end as u8]);
    }
    Ok(found)
}

fn profile(mut table: Table) -> Result<Profile, Fault> {
    let found = Profile {
        bits: table.number("bits", 2..=6)?,
        overhead: table.number("preamble", 0..=1_024)? + table.number("guard", 0..=255)?,
        parity: 2 * table.number("fec_t", 0..=16)?,
        data: table.number("fec_k", 16..=253)?,
        is_shortened: table.flag("shortened")?,
    };
    table.end()?;
    Ok(found)
}

fn times(table: &mut Table) -> Result<Times, Fault> {
    let found = Times {
        start: QUARTERS * table.number("start_us", 0..=MOST_US)?,
        interval: QUARTERS * table.number("interval_us", 100..=MOST_US)?,
        jitter: QUARTERS * table.number("jitter_us", 0..=MOST_US)?,
    };
    if found.jitter >= found.interval {
        return table.fault("jitter_us isn't below interval_us");
    }
    Ok(found)
}

/// The place of the channel with this id.
fn place_of(channels: &[Channel], id: u32) -> Result<usize, Fault> {
    let place = channels.iter().position(|channel| u32::from(channel.id) == id);
    place.ok_or_else(|| format!("no channel has the id {id}"))
}

fn flow(mut table: Table, channels: &[Channel]) -> Result<Flow, Fault> {
    let kind = match table.number("type", 2..=6)? {
        2 => Type::BestEffort,
        3 => Type::NonRealTimePolling,
        4 => Type::RealTimePolling,
        5 => Type::ActivityDetection,
        _ => Type::Unsolicited,
    };
    let makes_requests = !matches!(kind, Type::ActivityDetection | Type::Unsolicited);
    let found = Flow {
        id: table.number("id", 1..=65_535)?,
        kind,
        channels: toml::numbers(&table.list("channels")?, 1..=255)?
            .into_iter()
            .map(|id| place_of(channels, id))
            .collect::<Result<_, _>>()?,
        clusters: clusters(&table.list("clusters")?)?,
        service: if makes_requests {
            Service::Requests(requests(&mut table)?)
        } else {
            Service::Grants(grants(&mut table)?)
        },
        times: if kind == Type::BestEffort { None } else { Some(times(&mut table)?) },
    };
    let (most_channels, most_clusters) = if makes_requests { (8, 2) } else { (1, 1) };
    if !(1..=most_channels).contains(&found.channels.len())
        || !(1..=most_clusters).contains(&found.clusters.len())
        || found.clusters.iter().any(|sids| sids.len() != found.channels.len())
    {
        return table.fault("channels or clusters have another number");
    }
    table.end()?;
    Ok(found)
}

fn clusters(lists: &[Value]) -> Result<Vec<Vec<u32>>, Fault> {
    let cluster = |list: &Value| match list {
        Value::List(sids) => toml::numbers(sids, 1..=MOST_SID),
        _ => Err("a cluster is no list".into()),
    };
    lists.iter().map(cluster).collect()
}

fn requests(table: &mut Table) -> Result<Requests, Fault> {
    let unit = table.number("unit", 1..=16)?;
    if !unit.is_power_of_two() {
        return table.fault("unit isn't 1, 2, 4, 8 or 16");
    }
    let min_rate = match table.take("min_rate") {
        None => 0,
        Some(Value::Number(rate)) if rate <= MOST_RATE => rate,
        _ => return table.fault("min_rate isn't a number of its range"),
    };
    Ok(Requests {
        priority: table.number("priority", 0..=7)?,
        rate: table.number("rate", 0..=MOST_RATE)?,
        burst: table.number("burst", 1..=16_777_216)?,
        min_rate,
        unit,
        headers: table.flag("headers")?,
    })
}

fn grants(table: &mut Table) -> Result<Grants, Fault> {
    Ok(Grants {
        bytes: table.number("grant_bytes", 1..=65_535)?,
        per_interval: table.number("grants_per_interval", 1..=127)?,
    })
}

fn station(mut table: Table, channels: &[Channel]) -> Result<Station, Fault> {
    let found = Station {
        id: table.number("id", 1..=65_535)?,
        channel: place_of(channels, table.number("channel", 1..=255)?)?,
        sid: table.number("sid", 1..=MOST_SID)?,
        times: times(&mut table)?,
    };
    table.end()?;
    Ok(found)
}
