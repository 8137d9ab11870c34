//! The proved routines beside a Rust model on random histories: equal answers and equal boards
//! after every event.
use crate::event::{to_records, Answer, Event, RECORD};
use crate::histories::history;
use crate::loads;
use crate::model::channel::{Channel, Mode};
use crate::model::filters::Filters;
use crate::model::{self, Board, CHANNELS, PINS};
use crate::proved;
use crate::random::Random;
use std::fmt::Display;

/// The histories of a comparison, unless told otherwise, and the events of each.
pub const HISTORIES: u64 = 600;
const LENGTH: usize = 500;

/// First boards that no short history reaches: shortly before a tick of every rate, and before the
/// timestamp, the lost counts and the waits of the greatest filter come to their ends.
const LATE_PRESCALERS: [u32; 6] = [499_999_900, 49_999_900, 4_999_900, 499_900, 49_900, 4_900];
const LATE_TIMESTAMP: u32 = u32::MAX - 1;
const LATE_LOST: u32 = u32::MAX - 2;
const LATE_WAIT: u16 = u16::MAX - 2;
/// The pins that have the late wait.
const LATE_PINS: usize = 16;

/// Compares a model on the loads and on the histories of `n` seeds. The answer is the number of
/// events of the histories, or the first difference in words.
pub fn compare<M: Mode>(seed: u64, n: u64) -> Result<usize, String> {
    histories::<M>(seed, n)
        .and_then(|()| whole_loads::<M>())
        .and_then(|()| refusals::<M>())
        .map_err(|difference| format!("{} model, {difference}", M::NAME))?;
    Ok(n as usize * LENGTH)
}

fn histories<M: Mode>(seed: u64, n: u64) -> Result<(), String> {
    for s in (0..n).map(|i| seed.wrapping_add(i)) {
        let events = history(s, LENGTH);
        let (model, proved) = first_boards::<M>(s);
        one_by_one(model, proved, &events)
            .and_then(|()| as_list(model, proved, &events))
            .and_then(|()| in_pieces(s, model, proved, &events))
            .map_err(|difference| format!("history {s}: {difference}"))?;
    }
    Ok(())
}

/// Compares the loads, each as one list from reset.
fn whole_loads<M: Mode>() -> Result<(), String> {
    for name in loads::NAMES {
        let load = loads::load(name).ok_or(format!("no load {name}"))?;
        let events = [load.setup, load.events].concat();
        as_list(Board::<M>::reset(), proved::reset(), &events)
            .map_err(|difference| format!("load {name}: {difference}"))?;
    }
    Ok(())
}

/// The boards that a history starts on: at reset, or in every third history late.
fn first_boards<M: Mode>(seed: u64) -> (Board<M>, proved::Board) {
    let mut model = Board::reset();
    let mut proved = proved::reset();
    if seed.is_multiple_of(3) {
        let prescaler = LATE_PRESCALERS[seed as usize / 3 % LATE_PRESCALERS.len()];
        model.prescaler = prescaler;
        model.timestamp = LATE_TIMESTAMP;
        proved.core.clock.prescaler = prescaler;
        proved.core.clock.timestamp = LATE_TIMESTAMP;
        for c in 0..CHANNELS {
            model.channels[c].queue.lost = LATE_LOST;
            proved.channels[c].lost = LATE_LOST;
        }
        for pin in 0..LATE_PINS {
            model.pins.filters.put(pin, u16::MAX, LATE_WAIT);
        }
        proved.pins.filters = view_filters(&model.pins.filters);
    }
    (model, proved)
}

/// Event by event through `puntarys_apply`.
fn one_by_one<M: Mode>(
    mut model: Board<M>,
    mut proved: proved::Board,
    events: &[Event],
) -> Result<(), String> {
    same_board(&model, &proved).map_err(|d| format!("first board: {d}"))?;
    for (i, event) in events.iter().enumerate() {
        let answer = model.apply(event);
        let outcome = proved::apply(proved, *event);
        proved = outcome.board;
        same_answer(answer, outcome.answer)
            .and_then(|()| same_board(&model, &proved))
            .map_err(|d| format!("apply, event {i}, {event:?}: {d}"))?;
    }
    Ok(())
}

/// The whole history through `puntarys_run`.
fn as_list<M: Mode>(
    mut model: Board<M>,
    proved: proved::Board,
    events: &[Event],
) -> Result<(), String> {
    let records = to_records(events);
    let mut expected = vec![0; records.len()];
    model::run(&mut model, &records, &mut expected);
    // The bytes past the answers must stay as they are.
    let mut answers = vec![0xA5; records.len() + RECORD];
    let ran = proved::run(proved, &records, &mut answers);
    expected.resize(answers.len(), 0xA5);
    same_run(&ran, events, &expected, &answers)
        .and_then(|()| same_board(&model, &ran.board))
        .map_err(|d| format!("run: {d}"))
}

/// The history through `puntarys_run`, cut at random places.
fn in_pieces<M: Mode>(
    seed: u64,
    mut model: Board<M>,
    mut proved: proved::Board,
    events: &[Event],
) -> Result<(), String> {
    let mut random = Random::new(!seed);
    let mut from = 0;
    while from < events.len() {
        let most = random.of(&[1, 4, 32, 200]);
        let to = events.len().min(from + random.below(most + 1) as usize);
        let records = to_records(&events[from..to]);
        let mut expected = vec![0; records.len()];
        model::run(&mut model, &records, &mut expected);
        let mut answers = vec![0; records.len()];
        let ran = proved::run(proved, &records, &mut answers);
        proved = ran.board;
        same_run(&ran, &events[from..to], &expected, &answers)
            .and_then(|()| same_board(&model, &proved))
            .map_err(|d| format!("run from event {from} to {to}: {d}"))?;
        from = to;
    }
    Ok(())
}

/// The two refusals of `puntarys_run`: bytes that are no records, and a short output. Both leave
/// the board and the output as they were.
fn refusals<M: Mode>() -> Result<(), String> {
    let records = to_records(&history(1, 20));
    for (length, room, result) in [
        (15, 320, 11),
        (17, 0, 11),
        (319, 320, 11),
        (16, 15, 10),
        (320, 319, 10),
    ] {
        let mut answers = vec![0xA5; room];
        let ran = proved::run(proved::reset(), &records[..length], &mut answers);
        let told = (ran.result, ran.answered);
        let kept = same_board(&Board::<M>::reset(), &ran.board).is_ok();
        if told != (result, 0) || !kept || answers.iter().any(|&byte| byte != 0xA5) {
            return Err(format!(
                "run of {length} bytes into {room}: result and answered {told:?}, kept {kept}"
            ));
        }
    }
    Ok(())
}

fn same_run(
    ran: &proved::Ran,
    events: &[Event],
    expected: &[u8],
    answers: &[u8],
) -> Result<(), String> {
    same("result", 0, ran.result)?;
    same("answered", events.len(), ran.answered)?;
    match (0..expected.len()).find(|&at| expected[at] != answers[at]) {
        None => Ok(()),
        Some(at) => {
            let i = at / RECORD;
            let bytes = i * RECORD..(i + 1) * RECORD;
            Err(format!(
                "answer {i} of {:?}: bytes {:?} in the model, {:?} proved",
                events.get(i),
                &expected[bytes.clone()],
                &answers[bytes]
            ))
        }
    }
}

fn same_answer(model: Answer, proved: Answer) -> Result<(), String> {
    if model == proved {
        return Ok(());
    }
    Err(format!("answer {model:?} in the model, {proved:?} proved"))
}

fn same<T: PartialEq + Display>(field: &str, model: T, proved: T) -> Result<(), String> {
    if model == proved {
        return Ok(());
    }
    Err(format!("{field} {model} in the model, {proved} proved"))
}

/// Whether every field of the two boards is the same.
fn same_board<M: Mode>(model: &Board<M>, proved: &proved::Board) -> Result<(), String> {
    let m = view(model);
    let p = proved;
    for c in 0..CHANNELS {
        same_channel(&m.channels[c], &p.channels[c]).map_err(|d| format!("channel {c}, {d}"))?;
    }
    same_pins(&m.pins, &p.pins)?;
    same("virtual own", m.virtuals.own, p.virtuals.own)?;
    same("virtual safedata", m.virtuals.safedata, p.virtuals.safedata)?;
    same(
        "virtual safeenable",
        m.virtuals.safeenable,
        p.virtuals.safeenable,
    )?;
    same_core(&m.core, &p.core)
}

fn same_channel(m: &proved::Channel, p: &proved::Channel) -> Result<(), String> {
    same("mode", m.mode, p.mode)?;
    for i in 0..2 {
        same("preload", m.preloads[i], p.preloads[i])?;
        same("compare", m.compares[i], p.compares[i])?;
    }
    same("route", m.route, p.route)?;
    same("mask", m.mask, p.mask)?;
    same("count", m.count, p.count)?;
    same("running", m.running, p.running)?;
    same("armed", m.armed, p.armed)?;
    same("second", m.second, p.second)?;
    same("kept", m.kept, p.kept)?;
    same("extout", m.extout, p.extout)?;
    same("carry", m.carry, p.carry)?;
    same("held", m.held, p.held)?;
    same("lost", m.lost, p.lost)?;
    for i in 0..m.held as usize {
        same("entry count", m.counts[i], p.counts[i])?;
        same("entry timestamp", m.timestamps[i], p.timestamps[i])?;
        same("entry reason", m.reasons[i], p.reasons[i])?;
    }
    Ok(())
}

fn same_pins(m: &proved::Pins, p: &proved::Pins) -> Result<(), String> {
    same("pin level", m.level, p.level)?;
    same("pin driven", m.driven, p.driven)?;
    same("pin own", m.own, p.own)?;
    same("pin safedata", m.safedata, p.safedata)?;
    same("pin safeenable", m.safeenable, p.safeenable)?;
    same("pin source0", m.source0, p.source0)?;
    same("pin source1", m.source1, p.source1)?;
    same("pin source2", m.source2, p.source2)?;
    for plane in 0..proved::PLANES {
        same("filter", m.filters.filter[plane], p.filters.filter[plane])?;
        same("wait", m.filters.wait[plane], p.filters.wait[plane])?;
    }
    Ok(())
}

fn same_core(m: &proved::Core, p: &proved::Core) -> Result<(), String> {
    same("prescaler", m.clock.prescaler, p.clock.prescaler)?;
    same("timestamp", m.clock.timestamp, p.clock.timestamp)?;
    let (a, b) = (&m.watchdog, &p.watchdog);
    for stage in 0..model::STAGES {
        same("interval", a.intervals[stage], b.intervals[stage])?;
        same("rest", a.rests[stage], b.rests[stage])?;
    }
    same("expired", a.expired, b.expired)?;
    same("enabled", a.enabled, b.enabled)?;
    let (a, b) = (&m.safety, &p.safety);
    same("control", a.control, b.control)?;
    same("writes", a.writes, b.writes)?;
    same("safemode", a.safemode, b.safemode)
}

/// The model's board in the form of the proved one.
fn view<M: Mode>(b: &Board<M>) -> proved::Board {
    let channels = std::array::from_fn(|c| view_channel(&b.channels[c], b.extouts >> c & 1 != 0));
    // Bit `plane` of the source number of every pin.
    let source = |plane: usize| {
        (0..b.pins.sources.len())
            .filter(|s| s >> plane & 1 != 0)
            .fold(0, |pins, s| pins | b.pins.sources[s])
    };
    proved::Board {
        channels,
        pins: proved::Pins {
            level: b.pins.level,
            driven: b.pins.driven,
            own: b.pins.own,
            safedata: b.pins.safe_data,
            safeenable: b.pins.safe_enable,
            source0: source(0),
            source1: source(1),
            source2: source(2),
            filters: view_filters(&b.pins.filters),
        },
        virtuals: proved::Virtuals {
            own: b.virtuals.own,
            safedata: b.virtuals.safe_data,
            safeenable: b.virtuals.safe_enable,
        },
        core: proved::Core {
            clock: proved::Clock {
                prescaler: b.prescaler,
                timestamp: b.timestamp,
            },
            watchdog: proved::Watchdog {
                intervals: b.watchdog.stages.map(|stage| stage.interval),
                rests: b.watchdog.stages.map(|stage| stage.rest),
                expired: b
                    .watchdog
                    .stages
                    .map(|stage| stage.expired as u32)
                    .iter()
                    .sum(),
                enabled: b.watchdog.enabled,
            },
            safety: proved::Safety {
                control: b.control,
                writes: b.writes,
                safemode: b.safemode,
            },
        },
    }
}

fn view_filters(f: &Filters) -> proved::Filters {
    let mut view = proved::Filters {
        filter: [0; proved::PLANES],
        wait: [0; proved::PLANES],
    };
    for pin in 0..PINS as usize {
        let (filter, wait) = f.of(pin);
        for plane in 0..proved::PLANES {
            view.filter[plane] |= u64::from(filter >> plane & 1) << pin;
            view.wait[plane] |= u64::from(wait >> plane & 1) << pin;
        }
    }
    view
}

fn view_channel<M: Mode>(c: &Channel<M>, extout: bool) -> proved::Channel {
    let mut view = proved::Channel {
        mode: c.mode.word().0,
        preloads: c.preloads,
        compares: c.compares,
        route: c.route,
        mask: c.mask,
        count: c.count,
        running: c.running,
        armed: c.armed,
        second: c.second,
        kept: c.kept,
        extout,
        carry: c.carry,
        counts: [0; 16],
        timestamps: [0; 16],
        reasons: [0; 16],
        held: c.queue.held() as u32,
        lost: c.queue.lost,
    };
    for (i, entry) in c.queue.entries().enumerate() {
        view.counts[i] = entry.count;
        view.timestamps[i] = entry.timestamp;
        view.reasons[i] = entry.reason;
    }
    view
}
