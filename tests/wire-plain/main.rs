//! The same datagrams, read and written in plain Rust: a yardstick for the speed of the proved reader and writer, and a second
//! opinion on their answers. The checks, the rounds and the sums are those of the program `wire_rounds`.
//!
//!     rustc -O -C target-cpu=x86-64-v2 main.rs
//!
//! With `--cfg in_place` what is timed is a reader that fills one datagram.

use std::time::{Duration, Instant};

const ROOM: usize = 4096;
const COUNT: u64 = 1 << 60;
const TIME: u64 = 1 << 61;

// ---- the types

#[derive(Clone, Copy, PartialEq)]
struct List<T, const N: usize> {
    items: [T; N],
    len: usize,
}

impl<T: Copy + Default, const N: usize> List<T, N> {
    fn new() -> Self {
        List {
            items: [T::default(); N],
            len: 0,
        }
    }

    fn push(&mut self, item: T) {
        self.items[self.len] = item;
        self.len += 1;
    }

    fn as_slice(&self) -> &[T] {
        &self.items[..self.len]
    }
}

#[derive(Clone, Copy, Default, PartialEq)]
struct Member {
    who: u8,
    incarnation: u64,
}

#[derive(Clone, Copy, Default, PartialEq)]
struct UpdateId {
    who: u8,
    incarnation: u64,
    seq: u32,
}

#[derive(Clone, Copy, Default, PartialEq)]
enum Order {
    #[default]
    Unordered,
    Total,
    Timed,
}

#[derive(Clone, Copy, Default, PartialEq)]
enum Atom {
    #[default]
    Weak,
    Strong,
    Strict,
}

#[derive(Clone, Copy, Default, PartialEq)]
struct Entry {
    id: UpdateId,
    order: Order,
    atom: Atom,
    stamp: u64,
    late: bool,
}

#[derive(PartialEq)]
struct Kept {
    entry: Entry,
    early: bool,
    payload: List<u8, 128>,
}

#[derive(Clone, Copy, Default, PartialEq)]
struct Support {
    ack: u64,
    at: u64,
}

#[derive(Clone, Copy, Default, PartialEq)]
struct Seat {
    member: Member,
    next: u32,
    support: Option<Support>,
}

#[derive(Clone, Copy, Default, PartialEq)]
struct TimeMark {
    stamp: u64,
    who: u8,
    seq: u32,
}

#[derive(PartialEq)]
struct Decision {
    group: u64,
    turn: u64,
    made: u64,
    start: u64,
    low: u64,
    mark: TimeMark,
    seats: List<Seat, 15>,
    maker: u8,
    window: List<Entry, 32>,
}

#[derive(Clone, Copy, Default, PartialEq)]
enum Kind {
    #[default]
    Informed,
    Ready,
}

#[derive(Clone, Copy, Default, PartialEq)]
struct Report {
    member: Member,
    kind: Kind,
    group: u64,
    turn: u64,
    length: u64,
    support: Option<u64>,
    reading: u64,
}

#[derive(Clone, Copy, PartialEq)]
struct Interval {
    lo: u64,
    hi: u64,
}

#[derive(Clone, Copy, PartialEq)]
struct Echo {
    a: u64,
    b: u64,
}

#[derive(Clone, Copy, PartialEq)]
struct Head {
    from: u8,
    to: u8,
    incarnation: u64,
    sent: u64,
    interval: Option<Interval>,
    echo: Option<Echo>,
}

#[derive(Clone, Copy, PartialEq)]
enum Why {
    Stuck,
    Join(u64),
}

#[derive(Clone, Copy, PartialEq)]
enum Want {
    Update(UpdateId),
    Table(u64),
}

#[derive(PartialEq)]
#[allow(clippy::large_enum_variant)]
enum Body {
    Update(Kept),
    Decision(Decision),
    NoDecision {
        number: u64,
        group: u64,
        turn: u64,
        skip: u8,
        reports: List<Report, 15>,
        best: Decision,
    },
    Election {
        number: u64,
        why: Why,
    },
    Promise {
        number: u64,
        report: Report,
        decision: Option<Decision>,
    },
    Ask(Want),
    State {
        group: u64,
        position: u64,
        total: u16,
        offset: u16,
        bytes: List<u8, 1024>,
    },
    Sync {
        ready: Option<(u64, u64, u64)>,
    },
}

#[derive(PartialEq)]
struct Datagram {
    head: Head,
    body: Body,
}

enum Fault {
    Short,
    Long,
    Version,
    Kind,
    Line,
    Field(u16),
}

struct Team {
    n: u8,
    line: u32,
}

// ---- reading

/// The bytes and the place that is read next.
struct Reader<'a> {
    bytes: &'a [u8],
    place: usize,
}

impl Reader<'_> {
    fn take<const N: usize>(&mut self) -> Result<[u8; N], Fault> {
        let field = self
            .bytes
            .get(self.place..self.place + N)
            .ok_or(Fault::Short)?;
        self.place += N;
        Ok(field.try_into().unwrap())
    }

    /// A fault at the field of this size that was just read.
    fn where_allowed(&self, allowed: bool, size: usize) -> Result<(), Fault> {
        if allowed {
            Ok(())
        } else {
            Err(Fault::Field((self.place - size) as u16))
        }
    }

    fn byte(&mut self) -> Result<u8, Fault> {
        Ok(self.take::<1>()?[0])
    }

    fn u16(&mut self) -> Result<u16, Fault> {
        Ok(u16::from_be_bytes(self.take()?))
    }

    fn u32(&mut self) -> Result<u32, Fault> {
        Ok(u32::from_be_bytes(self.take()?))
    }

    fn u64(&mut self) -> Result<u64, Fault> {
        Ok(u64::from_be_bytes(self.take()?))
    }

    fn byte_to(&mut self, most: u8) -> Result<u8, Fault> {
        let byte = self.byte()?;
        self.where_allowed(byte <= most, 1)?;
        Ok(byte)
    }

    fn byte_below(&mut self, limit: u8) -> Result<u8, Fault> {
        let byte = self.byte()?;
        self.where_allowed(byte < limit, 1)?;
        Ok(byte)
    }

    fn count(&mut self) -> Result<u64, Fault> {
        let count = self.u64()?;
        self.where_allowed(count < COUNT, 8)?;
        Ok(count)
    }

    fn positive(&mut self) -> Result<u64, Fault> {
        let count = self.u64()?;
        self.where_allowed((1..COUNT).contains(&count), 8)?;
        Ok(count)
    }

    fn time(&mut self) -> Result<u64, Fault> {
        let time = self.u64()?;
        self.where_allowed(time < TIME, 8)?;
        Ok(time)
    }

    fn zeros(&mut self, fields: usize) -> Result<(), Fault> {
        for _ in 0..fields {
            let number = self.u64()?;
            self.where_allowed(number == 0, 8)?;
        }
        Ok(())
    }

    fn text<const N: usize>(&mut self, count: usize) -> Result<List<u8, N>, Fault> {
        let text = self
            .bytes
            .get(self.place..self.place + count)
            .ok_or(Fault::Short)?;
        self.place += count;
        let mut list = List::new();
        list.items[..count].copy_from_slice(text);
        list.len = count;
        Ok(list)
    }

    fn interval(&mut self) -> Result<Interval, Fault> {
        let lo = self.time()?;
        let hi = self.u64()?;
        self.where_allowed(lo <= hi && hi < TIME, 8)?;
        Ok(Interval { lo, hi })
    }

    fn head(&mut self, team: &Team) -> Result<(Head, u8), Fault> {
        if self.byte()? != 1 {
            return Err(Fault::Version);
        }
        let kind = self.byte()?;
        if !(1..=8).contains(&kind) {
            return Err(Fault::Kind);
        }
        if self.u32()? != team.line {
            return Err(Fault::Line);
        }
        let from = self.byte()?;
        let to = self.byte()?;
        let incarnation = self.count()?;
        let sent = self.count()?;
        let flags = self.byte_to(3)?;
        let interval = if flags % 2 == 1 {
            Some(self.interval()?)
        } else {
            self.zeros(2)?;
            None
        };
        let echo = if flags >= 2 {
            let a = self.count()?;
            let b = self.count()?;
            Some(Echo { a, b })
        } else {
            self.zeros(2)?;
            None
        };
        let head = Head {
            from,
            to,
            incarnation,
            sent,
            interval,
            echo,
        };
        Ok((head, kind))
    }

    fn id(&mut self, n: u8) -> Result<UpdateId, Fault> {
        let who = self.byte_below(n)?;
        let incarnation = self.count()?;
        let seq = self.u32()?;
        self.where_allowed((1..u32::MAX).contains(&seq), 4)?;
        Ok(UpdateId {
            who,
            incarnation,
            seq,
        })
    }

    fn entry(&mut self, n: u8, may_be_late: bool) -> Result<Entry, Fault> {
        let id = self.id(n)?;
        let class = self.byte()?;
        self.where_allowed(class <= 8 || may_be_late && (22..=24).contains(&class), 1)?;
        let stamp = self.count()?;
        let order = match class % 16 / 3 {
            0 => Order::Unordered,
            1 => Order::Total,
            _ => Order::Timed,
        };
        let atom = match class % 16 % 3 {
            0 => Atom::Weak,
            1 => Atom::Strong,
            _ => Atom::Strict,
        };
        Ok(Entry {
            id,
            order,
            atom,
            stamp,
            late: class >= 16,
        })
    }

    fn update(&mut self, n: u8) -> Result<Kept, Fault> {
        let entry = self.entry(n, false)?;
        let size = self.u16()?;
        self.where_allowed(size <= 128, 2)?;
        let payload = self.text(size.into())?;
        Ok(Kept {
            entry,
            early: false,
            payload,
        })
    }

    fn seat(&mut self, n: u8, before: &[Seat]) -> Result<Seat, Fault> {
        let who = self.byte()?;
        let above = before.last().map_or(true, |seat| seat.member.who < who);
        self.where_allowed(who < n && above, 1)?;
        let incarnation = self.count()?;
        let next = self.u32()?;
        self.where_allowed(next >= 1, 4)?;
        let support = if self.byte_to(1)? == 1 {
            let ack = self.count()?;
            let at = self.count()?;
            Some(Support { ack, at })
        } else {
            self.zeros(2)?;
            None
        };
        Ok(Seat {
            member: Member { who, incarnation },
            next,
            support,
        })
    }

    fn decision(&mut self, n: u8, told: Option<(u64, u64)>) -> Result<Decision, Fault> {
        let group = self.positive()?;
        self.where_allowed(told.map_or(true, |told| told.0 == group), 8)?;
        let turn = self.count()?;
        self.where_allowed(told.map_or(true, |told| told.1 == turn), 8)?;
        let made = self.count()?;
        let start = self.time()?;
        let low = self.count()?;
        let mark = TimeMark {
            stamp: self.count()?,
            who: self.byte_below(n)?,
            seq: self.u32()?,
        };
        let count = self.byte()?;
        self.where_allowed((n / 2 + 1..=n).contains(&count), 1)?;
        let mut seats = List::new();
        for _ in 0..count {
            let seat = self.seat(n, seats.as_slice())?;
            seats.push(seat);
        }
        let maker = self.byte()?;
        let is_maker =
            |seat: &Seat| seat.member.who == maker && seat.support.is_some_and(|s| s.at == made);
        self.where_allowed(seats.as_slice().iter().any(is_maker), 1)?;
        let count = self.byte()?;
        let end = low + u64::from(count);
        let within = |seat: &Seat| seat.support.map_or(true, |s| s.ack <= end);
        let allowed = count <= 32 && end < COUNT && seats.as_slice().iter().all(within);
        self.where_allowed(allowed, 1)?;
        let mut window = List::new();
        for _ in 0..count {
            let entry = self.entry(n, true)?;
            window.push(entry);
        }
        Ok(Decision {
            group,
            turn,
            made,
            start,
            low,
            mark,
            seats,
            maker,
            window,
        })
    }

    /// A report of this member, or one of several that are gathered.
    fn report(
        &mut self,
        n: u8,
        number: u64,
        told: Option<Member>,
        before: &[Report],
    ) -> Result<Report, Fault> {
        let who = self.byte()?;
        let other = before.iter().all(|report| report.member.who != who);
        let of_told = told.map_or(true, |member| member.who == who);
        self.where_allowed(who < n && of_told && other, 1)?;
        let incarnation = self.count()?;
        let of_told = told.map_or(true, |member| member.incarnation == incarnation);
        self.where_allowed(of_told, 8)?;
        let kind = if self.byte_to(u8::from(told.is_some()))? == 0 {
            Kind::Informed
        } else {
            Kind::Ready
        };
        let group = self.count()?;
        let below = kind == Kind::Ready || group < number;
        self.where_allowed(below && (told.is_some() || group >= 1), 8)?;
        let turn = self.count()?;
        let length = self.count()?;
        let support = if self.byte_to(1)? == 1 {
            Some(self.count()?)
        } else {
            self.zeros(1)?;
            None
        };
        let reading = self.count()?;
        Ok(Report {
            member: Member { who, incarnation },
            kind,
            group,
            turn,
            length,
            support,
            reading,
        })
    }

    fn no_decision(&mut self, n: u8) -> Result<Body, Fault> {
        let number = self.positive()?;
        let group = self.positive()?;
        let turn = self.count()?;
        let skip = self.byte_below(n)?;
        let count = self.byte()?;
        self.where_allowed((1..=n).contains(&count), 1)?;
        let mut reports = List::new();
        for _ in 0..count {
            let report = self.report(n, number, None, reports.as_slice())?;
            reports.push(report);
        }
        let all = reports.as_slice().iter();
        let latest = all.map(|report| (report.group, report.turn)).max();
        let best = self.decision(n, latest)?;
        Ok(Body::NoDecision {
            number,
            group,
            turn,
            skip,
            reports,
            best,
        })
    }

    fn promise(&mut self, n: u8, head: &Head) -> Result<Body, Fault> {
        let number = self.positive()?;
        let sender = Member {
            who: head.from,
            incarnation: head.incarnation,
        };
        let report = self.report(n, number, Some(sender), &[])?;
        let expected = report.kind == Kind::Informed && report.group >= 1;
        let present = self.byte()?;
        self.where_allowed(present == u8::from(expected), 1)?;
        let decision = if expected {
            Some(self.decision(n, Some((report.group, report.turn)))?)
        } else {
            None
        };
        Ok(Body::Promise {
            number,
            report,
            decision,
        })
    }

    fn election(&mut self) -> Result<Body, Fault> {
        let number = self.positive()?;
        let why = if self.byte_to(1)? == 0 {
            self.zeros(1)?;
            Why::Stuck
        } else {
            Why::Join(self.positive()?)
        };
        Ok(Body::Election { number, why })
    }

    fn want(&mut self, n: u8) -> Result<Want, Fault> {
        Ok(if self.byte_to(1)? == 0 {
            Want::Update(self.id(n)?)
        } else {
            Want::Table(self.positive()?)
        })
    }

    fn state(&mut self) -> Result<Body, Fault> {
        let group = self.positive()?;
        let position = self.count()?;
        let total = self.u16()?;
        self.where_allowed((1..=4096).contains(&total), 2)?;
        let offset = self.u16()?;
        self.where_allowed(offset < total && offset % 1024 == 0, 2)?;
        let size = self.u16()?;
        self.where_allowed(size == (total - offset).min(1024), 2)?;
        let bytes = self.text(size.into())?;
        Ok(Body::State {
            group,
            position,
            total,
            offset,
            bytes,
        })
    }

    fn sync(&mut self) -> Result<Option<(u64, u64, u64)>, Fault> {
        if self.byte_to(1)? == 1 {
            Ok(Some((self.count()?, self.count()?, self.count()?)))
        } else {
            self.zeros(3)?;
            Ok(None)
        }
    }

    fn body(&mut self, n: u8, kind: u8, head: &Head) -> Result<Body, Fault> {
        match kind {
            1 => Ok(Body::Update(self.update(n)?)),
            2 => Ok(Body::Decision(self.decision(n, None)?)),
            3 => self.no_decision(n),
            4 => self.election(),
            5 => self.promise(n, head),
            6 => Ok(Body::Ask(self.want(n)?)),
            7 => self.state(),
            _ => Ok(Body::Sync {
                ready: self.sync()?,
            }),
        }
    }
}

#[inline(never)]
fn read(team: &Team, bytes: &[u8]) -> Result<Datagram, Fault> {
    let mut reader = Reader { bytes, place: 0 };
    let (head, kind) = reader.head(team)?;
    let body = reader.body(team.n, kind, &head)?;
    if bytes.len() > reader.place {
        return Err(Fault::Long);
    }
    Ok(Datagram { head, body })
}

// ---- reading in place

#[cfg(in_place)]
fn blank() -> Datagram {
    let head = Head {
        from: 0,
        to: 0,
        incarnation: 0,
        sent: 0,
        interval: None,
        echo: None,
    };
    Datagram {
        head,
        body: Body::Sync { ready: None },
    }
}

#[cfg(in_place)]
impl Reader<'_> {
    fn text_into<const N: usize>(
        &mut self,
        count: usize,
        list: &mut List<u8, N>,
    ) -> Result<(), Fault> {
        let text = self
            .bytes
            .get(self.place..self.place + count)
            .ok_or(Fault::Short)?;
        self.place += count;
        list.items[..count].copy_from_slice(text);
        list.len = count;
        Ok(())
    }

    fn decision_into(
        &mut self,
        n: u8,
        told: Option<(u64, u64)>,
        decision: &mut Decision,
    ) -> Result<(), Fault> {
        decision.group = self.positive()?;
        self.where_allowed(told.map_or(true, |told| told.0 == decision.group), 8)?;
        decision.turn = self.count()?;
        self.where_allowed(told.map_or(true, |told| told.1 == decision.turn), 8)?;
        decision.made = self.count()?;
        decision.start = self.time()?;
        decision.low = self.count()?;
        decision.mark = TimeMark {
            stamp: self.count()?,
            who: self.byte_below(n)?,
            seq: self.u32()?,
        };
        let count = self.byte()?;
        self.where_allowed((n / 2 + 1..=n).contains(&count), 1)?;
        decision.seats.len = 0;
        for _ in 0..count {
            let seat = self.seat(n, decision.seats.as_slice())?;
            decision.seats.push(seat);
        }
        let seats = decision.seats.as_slice();
        let made = decision.made;
        let maker = self.byte()?;
        let is_maker =
            |seat: &Seat| seat.member.who == maker && seat.support.is_some_and(|s| s.at == made);
        self.where_allowed(seats.iter().any(is_maker), 1)?;
        decision.maker = maker;
        let count = self.byte()?;
        let end = decision.low + u64::from(count);
        let within = |seat: &Seat| seat.support.map_or(true, |s| s.ack <= end);
        let allowed = count <= 32 && end < COUNT && seats.iter().all(within);
        self.where_allowed(allowed, 1)?;
        decision.window.len = 0;
        for _ in 0..count {
            let entry = self.entry(n, true)?;
            decision.window.push(entry);
        }
        Ok(())
    }

    /// Fills a body of this kind. One of another kind is read as a new one.
    fn body_into(&mut self, n: u8, kind: u8, head: &Head, body: &mut Body) -> Result<(), Fault> {
        match (kind, &mut *body) {
            (1, Body::Update(kept)) => {
                kept.entry = self.entry(n, false)?;
                let size = self.u16()?;
                self.where_allowed(size <= 128, 2)?;
                self.text_into(size.into(), &mut kept.payload)
            }
            (2, Body::Decision(decision)) => self.decision_into(n, None, decision),
            (
                3,
                Body::NoDecision {
                    number,
                    group,
                    turn,
                    skip,
                    reports,
                    best,
                },
            ) => {
                *number = self.positive()?;
                *group = self.positive()?;
                *turn = self.count()?;
                *skip = self.byte_below(n)?;
                let count = self.byte()?;
                self.where_allowed((1..=n).contains(&count), 1)?;
                reports.len = 0;
                for _ in 0..count {
                    let report = self.report(n, *number, None, reports.as_slice())?;
                    reports.push(report);
                }
                let all = reports.as_slice().iter();
                let latest = all.map(|report| (report.group, report.turn)).max();
                self.decision_into(n, latest, best)
            }
            (
                5,
                Body::Promise {
                    number,
                    report,
                    decision: Some(decision),
                },
            ) => {
                *number = self.positive()?;
                let sender = Member {
                    who: head.from,
                    incarnation: head.incarnation,
                };
                *report = self.report(n, *number, Some(sender), &[])?;
                let expected = report.kind == Kind::Informed && report.group >= 1;
                let present = self.byte()?;
                self.where_allowed(present == u8::from(expected), 1)?;
                if expected {
                    self.decision_into(n, Some((report.group, report.turn)), decision)
                } else {
                    *body = Body::Promise {
                        number: *number,
                        report: *report,
                        decision: None,
                    };
                    Ok(())
                }
            }
            (
                5,
                Body::Promise {
                    number,
                    report,
                    decision,
                },
            ) => {
                *number = self.positive()?;
                let sender = Member {
                    who: head.from,
                    incarnation: head.incarnation,
                };
                *report = self.report(n, *number, Some(sender), &[])?;
                let expected = report.kind == Kind::Informed && report.group >= 1;
                let present = self.byte()?;
                self.where_allowed(present == u8::from(expected), 1)?;
                if expected {
                    *decision = Some(self.decision(n, Some((report.group, report.turn)))?);
                }
                Ok(())
            }
            (6, Body::Ask(want)) => {
                *want = self.want(n)?;
                Ok(())
            }
            (
                7,
                Body::State {
                    group,
                    position,
                    total,
                    offset,
                    bytes,
                },
            ) => {
                *group = self.positive()?;
                *position = self.count()?;
                *total = self.u16()?;
                self.where_allowed((1..=4096).contains(total), 2)?;
                *offset = self.u16()?;
                self.where_allowed(*offset < *total && *offset % 1024 == 0, 2)?;
                let size = self.u16()?;
                self.where_allowed(size == (*total - *offset).min(1024), 2)?;
                self.text_into(size.into(), bytes)
            }
            (8, Body::Sync { ready }) => {
                *ready = self.sync()?;
                Ok(())
            }
            (4, Body::Election { number, why }) => {
                *number = self.positive()?;
                *why = if self.byte_to(1)? == 0 {
                    self.zeros(1)?;
                    Why::Stuck
                } else {
                    Why::Join(self.positive()?)
                };
                Ok(())
            }
            _ => {
                *body = self.body(n, kind, head)?;
                Ok(())
            }
        }
    }
}

#[cfg(in_place)]
#[inline(never)]
fn read_into(team: &Team, bytes: &[u8], datagram: &mut Datagram) -> Result<(), Fault> {
    let mut reader = Reader { bytes, place: 0 };
    let (head, kind) = reader.head(team)?;
    datagram.head = head;
    reader.body_into(team.n, kind, &head, &mut datagram.body)?;
    if bytes.len() > reader.place {
        return Err(Fault::Long);
    }
    Ok(())
}

// ---- writing

/// The buffer and the place that is written next.
struct Writer<'a> {
    out: &'a mut [u8; ROOM],
    place: usize,
}

impl Writer<'_> {
    fn text(&mut self, text: &[u8]) {
        self.out[self.place..self.place + text.len()].copy_from_slice(text);
        self.place += text.len();
    }

    fn byte(&mut self, byte: u8) {
        self.text(&[byte]);
    }

    fn u16(&mut self, number: u16) {
        self.text(&number.to_be_bytes());
    }

    fn u32(&mut self, number: u32) {
        self.text(&number.to_be_bytes());
    }

    fn u64(&mut self, number: u64) {
        self.text(&number.to_be_bytes());
    }

    /// Numbers that may be absent: then zeros.
    fn optional<const N: usize>(&mut self, numbers: Option<[u64; N]>) {
        for number in numbers.unwrap_or([0; N]) {
            self.u64(number);
        }
    }

    fn head(&mut self, team: &Team, head: &Head, kind: u8) {
        self.byte(1);
        self.byte(kind);
        self.u32(team.line);
        self.byte(head.from);
        self.byte(head.to);
        self.u64(head.incarnation);
        self.u64(head.sent);
        self.byte(u8::from(head.interval.is_some()) + 2 * u8::from(head.echo.is_some()));
        self.optional(head.interval.map(|i| [i.lo, i.hi]));
        self.optional(head.echo.map(|e| [e.a, e.b]));
    }

    fn id(&mut self, id: &UpdateId) {
        self.byte(id.who);
        self.u64(id.incarnation);
        self.u32(id.seq);
    }

    fn entry(&mut self, entry: &Entry) {
        self.id(&entry.id);
        let late = if entry.late { 16 } else { 0 };
        self.byte(3 * entry.order as u8 + entry.atom as u8 + late);
        self.u64(entry.stamp);
    }

    fn seat(&mut self, seat: &Seat) {
        self.byte(seat.member.who);
        self.u64(seat.member.incarnation);
        self.u32(seat.next);
        self.byte(u8::from(seat.support.is_some()));
        self.optional(seat.support.map(|s| [s.ack, s.at]));
    }

    fn decision(&mut self, decision: &Decision) {
        self.u64(decision.group);
        self.u64(decision.turn);
        self.u64(decision.made);
        self.u64(decision.start);
        self.u64(decision.low);
        self.u64(decision.mark.stamp);
        self.byte(decision.mark.who);
        self.u32(decision.mark.seq);
        self.byte(decision.seats.len as u8);
        for seat in decision.seats.as_slice() {
            self.seat(seat);
        }
        self.byte(decision.maker);
        self.byte(decision.window.len as u8);
        for entry in decision.window.as_slice() {
            self.entry(entry);
        }
    }

    fn report(&mut self, report: &Report) {
        self.byte(report.member.who);
        self.u64(report.member.incarnation);
        self.byte(report.kind as u8);
        self.u64(report.group);
        self.u64(report.turn);
        self.u64(report.length);
        self.byte(u8::from(report.support.is_some()));
        self.optional(report.support.map(|s| [s]));
        self.u64(report.reading);
    }

    fn want(&mut self, want: &Want) {
        match want {
            Want::Update(id) => {
                self.byte(0);
                self.id(id);
            }
            Want::Table(group) => {
                self.byte(1);
                self.u64(*group);
            }
        }
    }

    fn body(&mut self, body: &Body) {
        match body {
            Body::Update(kept) => {
                self.entry(&kept.entry);
                self.u16(kept.payload.len as u16);
                self.text(kept.payload.as_slice());
            }
            Body::Decision(decision) => self.decision(decision),
            Body::NoDecision {
                number,
                group,
                turn,
                skip,
                reports,
                best,
            } => {
                self.u64(*number);
                self.u64(*group);
                self.u64(*turn);
                self.byte(*skip);
                self.byte(reports.len as u8);
                for report in reports.as_slice() {
                    self.report(report);
                }
                self.decision(best);
            }
            Body::Election { number, why } => {
                self.u64(*number);
                let (byte, group) = match why {
                    Why::Stuck => (0, 0),
                    Why::Join(group) => (1, *group),
                };
                self.byte(byte);
                self.u64(group);
            }
            Body::Promise {
                number,
                report,
                decision,
            } => {
                self.u64(*number);
                self.report(report);
                self.byte(u8::from(decision.is_some()));
                if let Some(decision) = decision {
                    self.decision(decision);
                }
            }
            Body::Ask(want) => self.want(want),
            Body::State {
                group,
                position,
                total,
                offset,
                bytes,
            } => {
                self.u64(*group);
                self.u64(*position);
                self.u16(*total);
                self.u16(*offset);
                self.u16(bytes.len as u16);
                self.text(bytes.as_slice());
            }
            Body::Sync { ready } => {
                self.byte(u8::from(ready.is_some()));
                self.optional(ready.map(|(group, turn, length)| [group, turn, length]));
            }
        }
    }
}

fn kind_of(body: &Body) -> u8 {
    match body {
        Body::Update(_) => 1,
        Body::Decision(_) => 2,
        Body::NoDecision { .. } => 3,
        Body::Election { .. } => 4,
        Body::Promise { .. } => 5,
        Body::Ask(_) => 6,
        Body::State { .. } => 7,
        Body::Sync { .. } => 8,
    }
}

#[inline(never)]
fn write(team: &Team, datagram: &Datagram, out: &mut [u8; ROOM]) -> usize {
    let mut writer = Writer { out, place: 0 };
    writer.head(team, &datagram.head, kind_of(&datagram.body));
    writer.body(&datagram.body);
    writer.place
}

// ---- datagrams at random, as in wire_rounds

/// The generator's state.
struct Draw {
    state: u64,
}

impl Draw {
    fn new(seed: u64) -> Draw {
        Draw { state: seed }
    }

    fn step(&mut self) -> u64 {
        self.state = self
            .state
            .wrapping_mul(6_364_136_223_846_793_005)
            .wrapping_add(1_442_695_040_888_963_407);
        self.state
    }

    /// A number below this one; 0 for 0.
    fn below(&mut self, limit: u64) -> u64 {
        let step = self.step() >> 33;
        step.checked_rem(limit).unwrap_or(0)
    }

    /// A count: small, middling, any, or one of the greatest.
    fn count(&mut self) -> u64 {
        match self.below(4) {
            0 => self.below(4),
            1 => self.below(1_000_000),
            2 => self.step() >> 4,
            _ => (1 << 60) - 1 - (self.step() >> 62),
        }
    }
}

struct Page {
    bytes: [u8; ROOM],
    end: usize,
}

impl Page {
    fn new() -> Page {
        Page {
            bytes: [0; ROOM],
            end: 0,
        }
    }

    /// Puts a number behind what is there, in so many bytes, the highest first.
    fn put(&mut self, size: usize, number: u64) {
        let digits = number.to_be_bytes();
        let skipped = digits.len().saturating_sub(size);
        let slots = self.bytes.iter_mut().skip(self.end);
        for (slot, digit) in slots.zip(digits.iter().skip(skipped)) {
            *slot = *digit;
        }
        self.end = self.end.saturating_add(size);
    }

    /// What was put, or its first bytes.
    fn text(&self, length: usize) -> &[u8] {
        self.bytes.get(..length).unwrap_or(&self.bytes)
    }
}

/// A group and a turn.
#[derive(Clone, Copy, PartialEq, Eq, PartialOrd, Ord)]
struct Turn {
    group: u64,
    turn: u64,
}

/// What a seat of a decision may hold.
#[derive(Clone, Copy)]
struct Bounds {
    made: u64,
    end: u64,
}

/// Makes one datagram after the other.
struct Maker {
    /// The size of the team whose datagram is made.
    n: u8,
    draw: Draw,
    page: Page,
}

impl Maker {
    fn new(seed: u64) -> Maker {
        Maker {
            n: 3,
            draw: Draw::new(seed),
            page: Page::new(),
        }
    }

    /// Makes a datagram of any kind, and answers the size of its team.
    fn next(&mut self) -> u8 {
        let n = 3 + self.draw.below(13) as u8;
        self.n = n;
        self.page.end = 0;
        let kind = 1 + self.draw.below(8);
        let from = self.process();
        let incarnation = self.draw.count();
        self.head(kind, from, incarnation);
        match kind {
            1 => self.update(),
            2 => self.any_decision(),
            3 => self.no_decision(),
            4 => self.election(),
            5 => self.promise(from, incarnation),
            6 => self.ask(),
            7 => self.state(),
            _ => self.sync(),
        }
        n
    }

    fn process(&mut self) -> u64 {
        self.draw.below(self.n.into())
    }

    fn put(&mut self, size: usize, number: u64) {
        self.page.put(size, number);
    }

    fn put_count(&mut self) {
        let count = self.draw.count();
        self.put(8, count);
    }

    fn put_process(&mut self) {
        let process = self.process();
        self.put(1, process);
    }

    /// A number of four bytes that isn't 0.
    fn put_seq(&mut self) {
        let seq = 1 + self.draw.below(2_147_483_647);
        self.put(4, seq);
    }

    fn put_positive(&mut self) {
        let count = 1 + self.draw.below(1_000_000);
        self.put(8, count);
    }

    fn put_bytes(&mut self, length: u64) {
        self.put(2, length);
        for _ in 0..length {
            let byte = self.draw.below(256);
            self.put(1, byte);
        }
    }

    /// So many counts, or so many zeros.
    fn put_if(&mut self, present: bool, fields: u8) {
        for _ in 0..fields {
            if present {
                self.put_count();
            } else {
                self.put(8, 0);
            }
        }
    }

    fn head(&mut self, kind: u64, from: u64, incarnation: u64) {
        self.put(1, 1);
        self.put(1, kind);
        self.put(4, 7);
        self.put(1, from);
        let to = self.draw.below(256);
        self.put(1, to);
        self.put(8, incarnation);
        self.put_count();
        let flags = self.draw.below(4);
        self.put(1, flags);
        let lo = self.draw.count();
        let hi = lo.saturating_add(self.draw.below(1_000));
        let has_interval = flags % 2 == 1;
        self.put(8, if has_interval { lo } else { 0 });
        self.put(8, if has_interval { hi } else { 0 });
        self.put_if(flags >= 2, 2);
    }

    fn id(&mut self) {
        self.put_process();
        self.put_count();
        self.put_seq();
    }

    fn entry(&mut self, may_be_late: bool) {
        self.id();
        let order = self.draw.below(3);
        let atom = self.draw.below(3);
        let is_late = may_be_late && order == 2 && self.draw.below(2) == 1;
        let class = (3 * order).saturating_add(atom);
        self.put(
            1,
            if is_late {
                class.saturating_add(16)
            } else {
                class
            },
        );
        self.put_count();
    }

    fn update(&mut self) {
        self.entry(false);
        let length = self.draw.below(129);
        self.put_bytes(length);
    }

    fn any_decision(&mut self) {
        let group = 1 + self.draw.below(1_000_000);
        let turn = self.draw.count();
        self.decision(Turn { group, turn });
    }

    fn seat(&mut self, who: u64, is_maker: bool, bounds: Bounds) {
        self.put(1, who);
        self.put_count();
        self.put_seq();
        let ack = self.draw.below(bounds.end.saturating_add(1));
        let at = self.draw.count();
        let present = is_maker || self.draw.below(2) == 1;
        let at = if is_maker { bounds.made } else { at };
        self.put(1, present.into());
        self.put(8, if present { ack } else { 0 });
        self.put(8, if present { at } else { 0 });
    }

    /// So many seats, ascending by process. Answers the process of the one with this index.
    fn seats(&mut self, count: u64, maker_index: u64, bounds: Bounds) -> u64 {
        let n = u64::from(self.n);
        let mut left = count;
        let mut maker = 0;
        for who in 0..n {
            if self.draw.below(n - who) < left {
                let is_maker = count.saturating_sub(left) == maker_index;
                self.seat(who, is_maker, bounds);
                maker = if is_maker { who } else { maker };
                left = left.saturating_sub(1);
            }
        }
        maker
    }

    fn decision(&mut self, of: Turn) {
        self.put(8, of.group);
        self.put(8, of.turn);
        let made = self.draw.count();
        self.put(8, made);
        self.put_count();
        let low = self.draw.below(1_000_000_000);
        self.put(8, low);
        self.put_count();
        self.put_process();
        self.put_seq();
        let n = u64::from(self.n);
        let majority = n / 2 + 1;
        let spare = self
            .draw
            .below(n.saturating_sub(majority).saturating_add(1));
        let count = majority.saturating_add(spare);
        let entries = self.draw.below(33);
        let maker_index = self.draw.below(count);
        self.put(1, count);
        let end = low.saturating_add(entries);
        let maker = self.seats(count, maker_index, Bounds { made, end });
        self.put(1, maker);
        self.put(1, entries);
        for _ in 0..entries {
            self.entry(true);
        }
    }

    fn report(&mut self, is_ready: bool, of: Turn) {
        self.put(1, is_ready.into());
        self.put(8, of.group);
        self.put(8, of.turn);
        self.put_count();
        let present = self.draw.below(2) == 1;
        self.put(1, present.into());
        self.put_if(present, 1);
        self.put_count();
    }

    fn promise(&mut self, from: u64, incarnation: u64) {
        let number = 1 + self.draw.below(1_000_000);
        let is_ready = self.draw.below(3) == 0;
        let any = self.draw.count();
        let below = self.draw.below(number);
        let turn = self.draw.count();
        let group = if is_ready { any } else { below };
        self.put(8, number);
        self.put(1, from);
        self.put(8, incarnation);
        self.report(is_ready, Turn { group, turn });
        let present = !is_ready && group >= 1;
        self.put(1, present.into());
        if present {
            self.decision(Turn { group, turn });
        }
    }

    /// So many reports, of different processes. Answers the greatest group and turn.
    fn reports(&mut self, count: u64, number: u64) -> Turn {
        let n = u64::from(self.n);
        let mut left = count;
        let mut best = Turn { group: 0, turn: 0 };
        for who in 0..n {
            if self.draw.below(n - who) < left {
                self.put(1, who);
                self.put_count();
                let group = self.draw.below(number.saturating_sub(1)).saturating_add(1);
                let turn = self.draw.below(4);
                self.report(false, Turn { group, turn });
                best = best.max(Turn { group, turn });
                left = left.saturating_sub(1);
            }
        }
        best
    }

    fn no_decision(&mut self) {
        let number = 2 + self.draw.below(8);
        self.put(8, number);
        self.put_positive();
        self.put_count();
        self.put_process();
        let count = 1 + self.draw.below(self.n.into());
        self.put(1, count);
        let best = self.reports(count, number);
        self.decision(best);
    }

    fn election(&mut self) {
        self.put_positive();
        let is_join = self.draw.below(2) == 1;
        self.put(1, is_join.into());
        if is_join {
            self.put_positive();
        } else {
            self.put(8, 0);
        }
    }

    fn ask(&mut self) {
        let is_table = self.draw.below(2) == 1;
        self.put(1, is_table.into());
        if is_table {
            self.put_positive();
        } else {
            self.id();
        }
    }

    fn state(&mut self) {
        self.put_positive();
        self.put_count();
        let total = 1 + self.draw.below(4_096);
        let pieces = total.saturating_add(1_023) / 1_024;
        let offset = self.draw.below(pieces).saturating_mul(1_024);
        self.put(2, total);
        self.put(2, offset);
        self.put_bytes(total.saturating_sub(offset).min(1_024));
    }

    fn sync(&mut self) {
        let is_ready = self.draw.below(2) == 1;
        self.put(1, is_ready.into());
        self.put_if(is_ready, 3);
    }
}

// ---- rounds

struct Outcome {
    same: u64,
    refused: u64,
    other: u64,
    sum: u64,
}

/// A number for a fault, above each length.
fn number_of(fault: Fault) -> u64 {
    match fault {
        Fault::Short => 10_000,
        Fault::Long => 10_001,
        Fault::Version => 10_002,
        Fault::Kind => 10_003,
        Fault::Line => 10_004,
        Fault::Field(place) => 20_000 + u64::from(place),
    }
}

impl Outcome {
    fn add(&mut self, number: u64) {
        self.sum = self.sum.wrapping_mul(31).wrapping_add(number);
    }

    fn take(&mut self, team: &Team, text: &[u8]) {
        match read(team, text) {
            Ok(datagram) => {
                let mut out = [0; ROOM];
                let length = write(team, &datagram, &mut out);
                if out.get(..length) == Some(text) {
                    self.same += 1;
                } else {
                    self.other += 1;
                }
                self.add(length as u64);
            }
            Err(fault) => {
                self.refused += 1;
                self.add(number_of(fault));
            }
        }
    }

    fn round(&mut self, maker: &mut Maker) {
        let team = Team {
            n: maker.next(),
            line: 7,
        };
        let end = maker.page.end;
        self.take(&team, maker.page.text(end));
        let cut = maker.draw.below(end as u64) as usize;
        self.take(&team, maker.page.text(cut));
        maker.page.put(1, 0);
        self.take(&team, maker.page.text(maker.page.end));
        let place = maker.draw.below(end as u64) as usize;
        let change = 1 + maker.draw.below(255);
        if let Some(byte) = maker.page.bytes.get_mut(place) {
            *byte ^= change as u8;
        }
        self.take(&team, maker.page.text(end));
    }
}

fn rounds(number: u32) {
    let mut maker = Maker::new(1);
    let mut outcome = Outcome {
        same: 0,
        refused: 0,
        other: 0,
        sum: 0,
    };
    for _ in 0..number {
        outcome.round(&mut maker);
    }
    println!(
        "rounds {number} same {} refused {} other {} sum {}",
        outcome.same, outcome.refused, outcome.other, outcome.sum
    );
}

// ---- rates

/// A kind of datagram, and which of its two is meant.
#[derive(Clone, Copy)]
struct Sample {
    /// 1 to 8, as a datagram says it.
    kind: u8,
    /// The longest of its kind, of a team of fifteen, and not a short one, of a team of three.
    is_long: bool,
}

impl Sample {
    /// What it is called.
    fn name(self) -> &'static str {
        match self.kind {
            1 => "update",
            2 => "decision",
            3 => "no-decision",
            4 => "election",
            5 => "promise",
            6 => "ask",
            7 => "state",
            _ => "sync",
        }
    }

    fn size_name(self) -> &'static str {
        if self.is_long {
            "long"
        } else {
            "short"
        }
    }

    /// Its bytes.
    fn page(self) -> Page {
        let mut page = head(self.kind.into());
        match self.kind {
            1 => update(&mut page, self.is_long),
            2 => decision(&mut page, self.is_long),
            3 => no_decision(&mut page, self.is_long),
            4 => election(&mut page, self.is_long),
            5 => promise(&mut page, self.is_long),
            6 => ask(&mut page, self.is_long),
            7 => state(&mut page, self.is_long),
            _ => sync(&mut page, self.is_long),
        }
        page
    }
}

/// The head of a datagram of process 0 with an interval.
fn head(kind: u64) -> Page {
    let mut page = Page::new();
    page.put(1, 1);
    page.put(1, kind);
    page.put(4, 7);
    page.put(2, 1);
    page.put(8, 5);
    page.put(8, 0);
    page.put(1, 1);
    page.put(8, 900);
    page.put(8, 1_100);
    page.put(8, 0);
    page.put(8, 0);
    page
}

/// Bytes behind their number.
fn bytes(page: &mut Page, length: u16) {
    page.put(2, length.into());
    for i in 0..length {
        page.put(1, u64::from(i % 256));
    }
}

/// A timed update of process 2, with no payload or 128 bytes.
fn update(page: &mut Page, is_long: bool) {
    entry(page, 3);
    bytes(page, if is_long { 128 } else { 0 });
}

fn entry(page: &mut Page, seq: u64) {
    id(page, seq);
    page.put(1, 8);
    page.put(8, 900);
}

fn id(page: &mut Page, seq: u64) {
    page.put(1, 2);
    page.put(8, 5);
    page.put(4, seq);
}

/// A decision of two seats and no entry, or of fifteen seats and 32 entries.
fn decision(page: &mut Page, is_long: bool) {
    for number in [5, 7, 1_000, 2_000, 10, 950] {
        page.put(8, number);
    }
    page.put(1, 2);
    page.put(4, 3);
    let seats = if is_long { 15 } else { 2 };
    page.put(1, seats);
    for who in 0..seats {
        page.put(1, who);
        page.put(8, 5);
        page.put(4, 9);
        page.put(1, 1);
        page.put(8, 10);
        page.put(8, 1_000);
    }
    page.put(1, 1);
    let entries = if is_long { 32 } else { 0 };
    page.put(1, entries);
    for seq in 0..entries {
        entry(page, seq + 1);
    }
}

/// A report behind its member.
fn report(page: &mut Page, is_ready: bool) {
    page.put(1, is_ready.into());
    page.put(8, 5);
    page.put(8, 7);
    page.put(8, 12);
    page.put(1, 1);
    page.put(8, 900);
    page.put(8, 1_000);
}

/// One report and a short decision, or fifteen and a longest one.
fn no_decision(page: &mut Page, is_long: bool) {
    for number in [9, 5, 7] {
        page.put(8, number);
    }
    page.put(1, 2);
    let reports = if is_long { 15 } else { 1 };
    page.put(1, reports);
    for who in 0..reports {
        page.put(1, who);
        page.put(8, 5);
        report(page, false);
    }
    decision(page, is_long);
}

/// For a process that is stuck, or for one that joins. Both have one length.
fn election(page: &mut Page, is_long: bool) {
    page.put(8, 9);
    page.put(1, is_long.into());
    page.put(8, if is_long { 5 } else { 0 });
}

/// Of a process that is ready, or of one with a longest decision.
fn promise(page: &mut Page, is_long: bool) {
    page.put(8, 9);
    page.put(1, 0);
    page.put(8, 5);
    report(page, !is_long);
    page.put(1, is_long.into());
    if is_long {
        decision(page, true);
    }
}

/// For the application's content, or for an update.
fn ask(page: &mut Page, is_long: bool) {
    page.put(1, (!is_long).into());
    if is_long {
        id(page, 3);
    } else {
        page.put(8, 5);
    }
}

/// A piece of one byte, or of 1,024.
fn state(page: &mut Page, is_long: bool) {
    page.put(8, 5);
    page.put(8, 10);
    page.put(2, if is_long { 4_096 } else { 1 });
    page.put(2, 0);
    bytes(page, if is_long { 1_024 } else { 1 });
}

/// Of a process that isn't ready, or of one that is. Both have one length.
fn sync(page: &mut Page, is_long: bool) {
    page.put(1, is_long.into());
    for number in [5, 7, 12] {
        page.put(8, if is_long { number } else { 0 });
    }
}

/// Reads the text so many times, as a new value, each time with another last byte of the clock's reading.
#[cfg(not(in_place))]
fn read_all(team: &Team, page: &mut Page, rounds: u32) -> u64 {
    let mut sum = 0u64;
    for i in 0..rounds {
        if let Some(byte) = page.bytes.get_mut(23) {
            *byte = (i % 256) as u8;
        }
        if let Ok(datagram) = read(team, page.text(page.end)) {
            sum = sum.wrapping_add(datagram.head.sent);
        }
    }
    sum
}

/// The same into one place.
#[cfg(in_place)]
fn read_all(team: &Team, page: &mut Page, rounds: u32) -> u64 {
    let mut inbox = blank();
    let mut sum = 0u64;
    for i in 0..rounds {
        if let Some(byte) = page.bytes.get_mut(23) {
            *byte = (i % 256) as u8;
        }
        if read_into(team, page.text(page.end), &mut inbox).is_ok() {
            sum = sum.wrapping_add(inbox.head.sent);
        }
    }
    sum
}

/// Reads the two texts in turn, so many times in all.
#[cfg(not(in_place))]
fn read_in_turn(team: &Team, pair: (&[u8], &[u8]), rounds: u32) -> u64 {
    let (first, second) = pair;
    let mut sum = 0u64;
    for i in 0..rounds {
        let text = if i % 2 == 0 { first } else { second };
        if let Ok(datagram) = read(team, text) {
            sum = sum.wrapping_add(datagram.head.incarnation);
        }
    }
    sum
}

/// The same into one place.
#[cfg(in_place)]
fn read_in_turn(team: &Team, pair: (&[u8], &[u8]), rounds: u32) -> u64 {
    let (first, second) = pair;
    let mut inbox = blank();
    let mut sum = 0u64;
    for i in 0..rounds {
        let text = if i % 2 == 0 { first } else { second };
        if read_into(team, text, &mut inbox).is_ok() {
            sum = sum.wrapping_add(inbox.head.incarnation);
        }
    }
    sum
}

/// Writes the two datagrams in turn, so many times in all.
fn write_all(team: &Team, pair: (&Datagram, &Datagram), rounds: u32) -> u64 {
    let (first, second) = pair;
    let mut out = [0; ROOM];
    let mut sum = 0u64;
    for i in 0..rounds {
        let datagram = if i % 2 == 0 { first } else { second };
        let length = write(team, datagram, &mut out);
        let byte = out.get(length / 2).copied().unwrap_or(0);
        sum = sum.wrapping_add(byte.into());
    }
    sum
}

/// So many in so long a time, by the second.
fn rate(rounds: u32, time: Duration) -> u128 {
    let micros = time.as_micros().max(1);
    u128::from(rounds) * 1_000_000 / micros
}

fn print_one(sample: Sample, rounds: u32) {
    let n = if sample.is_long { 15 } else { 3 };
    let team = Team { n, line: 7 };
    let mut page = sample.page();
    let start = Instant::now();
    let read_sum = read_all(&team, &mut page, rounds);
    let read_time = start.elapsed();
    let first = read(&team, page.text(page.end));
    if let Some(byte) = page.bytes.get_mut(23) {
        *byte ^= 1;
    }
    let second = read(&team, page.text(page.end));
    if let (Ok(first), Ok(second)) = (first, second) {
        let start = Instant::now();
        let write_sum = write_all(&team, (&first, &second), rounds);
        let write_time = start.elapsed();
        println!(
            "{}-{} {} read {} written {} sum {}",
            sample.name(),
            sample.size_name(),
            page.end,
            rate(rounds, read_time),
            rate(rounds, write_time),
            read_sum.wrapping_add(write_sum)
        );
    }
}

/// A decision and a sign of life, in turn.
fn print_in_turn(is_long: bool, rounds: u32) {
    let n = if is_long { 15 } else { 3 };
    let team = Team { n, line: 7 };
    let decision = Sample { kind: 2, is_long };
    let first = decision.page();
    let second = Sample { kind: 8, is_long }.page();
    let pair = (first.text(first.end), second.text(second.end));
    let start = Instant::now();
    let sum = read_in_turn(&team, pair, rounds);
    let time = start.elapsed();
    println!(
        "in-turn-{} {} read {} written 0 sum {sum}",
        decision.size_name(),
        first.end,
        rate(rounds, time)
    );
}

/// Prints the rates of a short and a longest datagram of each kind, and of two kinds in turn.
fn print(rounds: u32) {
    for kind in 1..=8 {
        for is_long in [false, true] {
            print_one(Sample { kind, is_long }, rounds);
        }
    }
    for is_long in [false, true] {
        print_in_turn(is_long, rounds);
    }
}

fn main() {
    let mut words = std::env::args().skip(1);
    let command = words.next();
    let number = words
        .next()
        .and_then(|word| word.parse().ok())
        .unwrap_or(1_000);
    match command.as_deref() {
        Some("rates") => print(number),
        _ => rounds(number),
    }
}
