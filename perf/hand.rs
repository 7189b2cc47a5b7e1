// The same rules by hand in Rust: docs/RULES.md. Written once over the kinds.
#![crate_type = "staticlib"]

#[cfg(kind = "0")]
type Measured = i16;
#[cfg(kind = "1")]
type Measured = i32;
#[cfg(kind = "2")]
type Measured = f32;

#[derive(Clone, Copy, PartialEq, Eq)]
#[repr(u8)]
enum Denial {
    SetupUnderKeypad = 1,
    ChannelCount = 2,
    Range = 3,
    CaptureLength = 4,
    Blank = 5,
    BufferTooShort = 6,
    ResponseBuffer = 7,
    FrameLength = 8,
    CheckOctet = 9,
    Service = 10,
    NoIndex = 11,
    NoSubindex = 12,
    WrongDirection = 13,
    DataTooLong = 14,
    DataTooShort = 15,
    WriteUnderKeypad = 16,
    NoValue = 17,
    AboveRange = 18,
    BelowRange = 19,
    UnknownCommand = 20,
    NotInState = 21,
}

impl Denial {
    fn error_code(self) -> Option<u16> {
        Some(match self {
            Denial::NoIndex => 0x8011,
            Denial::NoSubindex => 0x8012,
            Denial::WrongDirection => 0x8023,
            Denial::DataTooLong => 0x8033,
            Denial::DataTooShort => 0x8034,
            Denial::WriteUnderKeypad => 0x8021,
            Denial::NoValue => 0x8030,
            Denial::AboveRange => 0x8031,
            Denial::BelowRange => 0x8032,
            Denial::UnknownCommand => 0x8035,
            Denial::NotInState => 0x8036,
            _ => return None,
        })
    }
}

#[derive(Clone, Copy)]
struct Fault {
    denial: Denial,
    index: u16,
    subindex: u8,
}

impl From<Denial> for Fault {
    fn from(denial: Denial) -> Fault {
        Fault { denial, index: 0, subindex: 0 }
    }
}

// Kinds.

trait Kind: Copy + PartialOrd {
    const WIDTH: usize;
    const LOWEST_END: Self;
    const HIGHEST_END: Self;
    const BELOW: &'static [u8];
    const ABOVE: &'static [u8];
    const NO_DATA: &'static [u8];
    fn read(octets: &[u8]) -> Option<Self>;
    fn write(self, out: &mut [u8]);
    fn raise(self, steps: u16) -> Self;
    fn lower(self, steps: u16) -> Self;
    fn middle(self, other: Self) -> Self;

    fn lesser(self, other: Self) -> Self {
        if self <= other { self } else { other }
    }
    fn greater(self, other: Self) -> Self {
        if self <= other { other } else { self }
    }
}

impl Kind for i16 {
    const WIDTH: usize = 2;
    const LOWEST_END: i16 = -32_000;
    const HIGHEST_END: i16 = 32_000;
    const BELOW: &'static [u8] = &[0x80, 0x08];
    const ABOVE: &'static [u8] = &[0x7f, 0xf8];
    const NO_DATA: &'static [u8] = &[0x7f, 0xfc];

    fn read(octets: &[u8]) -> Option<i16> {
        Some(i16::from_be_bytes(octets.try_into().ok()?))
    }
    fn write(self, out: &mut [u8]) {
        out[..2].copy_from_slice(&self.to_be_bytes());
    }
    fn raise(self, steps: u16) -> i16 {
        self.saturating_add_unsigned(steps)
    }
    fn lower(self, steps: u16) -> i16 {
        self.saturating_sub_unsigned(steps)
    }
    fn middle(self, other: i16) -> i16 {
        ((i32::from(self) + i32::from(other)) >> 1) as i16
    }
}

impl Kind for i32 {
    const WIDTH: usize = 4;
    const LOWEST_END: i32 = -2_000_000_000;
    const HIGHEST_END: i32 = 2_000_000_000;
    const BELOW: &'static [u8] = &[0x80, 0x00, 0x00, 0x08];
    const ABOVE: &'static [u8] = &[0x7f, 0xff, 0xff, 0xf8];
    const NO_DATA: &'static [u8] = &[0x7f, 0xff, 0xff, 0xfc];

    fn read(octets: &[u8]) -> Option<i32> {
        Some(i32::from_be_bytes(octets.try_into().ok()?))
    }
    fn write(self, out: &mut [u8]) {
        out[..4].copy_from_slice(&self.to_be_bytes());
    }
    fn raise(self, steps: u16) -> i32 {
        self.saturating_add(i32::from(steps))
    }
    fn lower(self, steps: u16) -> i32 {
        self.saturating_sub(i32::from(steps))
    }
    fn middle(self, other: i32) -> i32 {
        ((i64::from(self) + i64::from(other)) >> 1) as i32
    }
}

impl Kind for f32 {
    const WIDTH: usize = 4;
    const LOWEST_END: f32 = -1_000_000.0;
    const HIGHEST_END: f32 = 1_000_000.0;
    const BELOW: &'static [u8] = &[0xff, 0x80, 0x00, 0x00];
    const ABOVE: &'static [u8] = &[0x7f, 0x80, 0x00, 0x00];
    const NO_DATA: &'static [u8] = &[0x7f, 0xc0, 0x00, 0x00];

    fn read(octets: &[u8]) -> Option<f32> {
        let v = f32::from_be_bytes(octets.try_into().ok()?);
        if !v.is_finite() {
            return None;
        }
        Some(if v == 0.0 { 0.0 } else { v })
    }
    fn write(self, out: &mut [u8]) {
        out[..4].copy_from_slice(&self.to_be_bytes());
    }
    fn raise(self, steps: u16) -> f32 {
        self + f32::from(steps) * 0.0009765625
    }
    fn lower(self, steps: u16) -> f32 {
        self - f32::from(steps) * 0.0009765625
    }
    fn middle(self, other: f32) -> f32 {
        let sum = (self * 0.5 + other * 0.5).clamp(self.lesser(other), self.greater(other));
        if sum == 0.0 { 0.0 } else { sum }
    }
}

// ISDU frames.

struct Request<'a> {
    write: bool,
    index: u16,
    subindex: u8,
    data: &'a [u8],
}

impl Request<'_> {
    fn deny<T>(&self, denial: Denial) -> Result<T, Fault> {
        Err(Fault { denial, index: self.index, subindex: self.subindex })
    }
}

fn exclusive_or(octets: &[u8]) -> u8 {
    octets.iter().fold(0, |all, octet| all ^ octet)
}

fn decode(frame: &[u8]) -> Result<Request<'_>, Denial> {
    let stated = match frame {
        [] => return Err(Denial::FrameLength),
        [first, total @ 17..=238, ..] if first & 0x0f == 1 => usize::from(*total),
        [first, ..] if first & 0x0f == 1 => return Err(Denial::FrameLength),
        [first, ..] => usize::from(first & 0x0f),
    };
    if stated != frame.len() {
        return Err(Denial::FrameLength);
    }
    if exclusive_or(frame) != 0 {
        return Err(Denial::CheckOctet);
    }
    let long = frame[0] & 0x0f == 1;
    let body = &frame[if long { 2 } else { 1 }..frame.len() - 1];
    let (index, subindex, data) = match (frame[0] >> 4, body) {
        (0x1 | 0x9, [index, data @ ..]) => (u16::from(*index), 0, data),
        (0x2 | 0xa, [index, subindex, data @ ..]) => (u16::from(*index), *subindex, data),
        (0x3 | 0xb, [high, low, subindex, data @ ..]) => (u16::from_be_bytes([*high, *low]), *subindex, data),
        _ => return Err(Denial::Service),
    };
    let write = frame[0] < 0x80;
    if write == data.is_empty() || !write && long {
        return Err(Denial::Service);
    }
    Ok(Request { write, index, subindex, data })
}

fn confirm_write(out: &mut [u8]) -> usize {
    out[..2].copy_from_slice(&[0x52, 0x52]);
    2
}

// Puts first and check octet around the n octets of an object that stand in the buffer from its second octet on.
fn confirm_read(n: usize, out: &mut [u8]) -> usize {
    out[0] = 0xd0 | (n + 2) as u8;
    out[n + 1] = exclusive_or(&out[..n + 1]);
    n + 2
}

fn refuse(write: bool, fault: Fault, out: &mut [u8]) -> Result<usize, Fault> {
    if let Some(code) = fault.denial.error_code() {
        let first = if write { 0x44 } else { 0xc4 };
        let [high, low] = code.to_be_bytes();
        out[..4].copy_from_slice(&[first, high, low, first ^ high ^ low]);
    }
    Err(fault)
}

// The objects.

#[derive(Clone, Copy)]
enum Object {
    SystemCommand,
    TeachSelect,
    TeachResult,
    // The channel, counted from 0.
    Setpoints(usize),
    Configuration(usize),
}

impl Object {
    fn at(index: u16, channels: u8) -> Option<Object> {
        let place = match index {
            2 => return Some(Object::SystemCommand),
            58 => return Some(Object::TeachSelect),
            59 => return Some(Object::TeachResult),
            60..=63 => index - 60,
            0x4000..=0x400b => index - 0x4000 + 4,
            _ => return None,
        };
        let row = usize::from(place / 2);
        if row >= usize::from(channels) {
            return None;
        }
        Some(if place % 2 == 0 { Object::Setpoints(row) } else { Object::Configuration(row) })
    }

    fn parts(self) -> u8 {
        match self {
            Object::Setpoints(_) => 2,
            Object::Configuration(_) => 3,
            _ => 0,
        }
    }

    fn length(self, subindex: u8, width: usize) -> usize {
        match (self, subindex) {
            (Object::Setpoints(_), 0) => 2 * width,
            (Object::Setpoints(_), _) => width,
            (Object::Configuration(_), 0) => 4,
            (Object::Configuration(_), 3) => 2,
            _ => 1,
        }
    }
}

// The teach.

#[derive(Clone, Copy, PartialEq, Eq)]
enum Setpoint {
    Sp1,
    Sp2,
}

#[derive(Clone, Copy)]
enum Teachpoint {
    Tp1,
    Tp2,
}

#[derive(Clone, Copy)]
enum Command {
    Apply,
    Single(Setpoint),
    Point(Setpoint, Teachpoint),
    Start(Setpoint),
    Stop(Setpoint),
    Cancel,
}

impl Command {
    fn of(code: u8) -> Option<Command> {
        use {Setpoint::*, Teachpoint::*};
        Some(match code {
            0x40 => Command::Apply,
            0x41 => Command::Single(Sp1),
            0x42 => Command::Single(Sp2),
            0x43 => Command::Point(Sp1, Tp1),
            0x44 => Command::Point(Sp1, Tp2),
            0x45 => Command::Point(Sp2, Tp1),
            0x46 => Command::Point(Sp2, Tp2),
            0x47 => Command::Start(Sp1),
            0x48 => Command::Stop(Sp1),
            0x49 => Command::Start(Sp2),
            0x4a => Command::Stop(Sp2),
            0x4f => Command::Cancel,
            _ => return None,
        })
    }
}

#[derive(Clone, Copy)]
struct Span<V> {
    lowest: V,
    highest: V,
}

impl<V: Kind> Span<V> {
    fn with(self, v: V) -> Span<V> {
        Span { lowest: v.lesser(self.lowest), highest: v.greater(self.highest) }
    }
}

#[derive(Clone, Copy)]
enum State<V> {
    Idle,
    BusySingle(Setpoint, u8, Option<Span<V>>),
    BusyTwo(Setpoint, Teachpoint, u8, Option<Span<V>>, [Option<V>; 2]),
    WaitTwo(Setpoint, [Option<V>; 2]),
    DynStart(Setpoint),
    WaitDyn(Setpoint, Span<V>),
}

#[derive(Clone, Copy)]
struct Terms {
    capture: u8,
    spread: u16,
    distance: u16,
}

#[derive(Clone, Copy)]
struct Teach<V> {
    // In bits 4 to 7.
    flags: u8,
    // 1 SP1, 2 SP2.
    taught: u8,
    failed: bool,
    state: State<V>,
}

fn flags_of(setpoint: Setpoint) -> u8 {
    match setpoint {
        Setpoint::Sp1 => 0x30,
        Setpoint::Sp2 => 0xc0,
    }
}

impl<V: Kind> Teach<V> {
    fn idle() -> Teach<V> {
        Teach { flags: 0, taught: 0, failed: false, state: State::Idle }
    }

    fn begin(&mut self, setpoint: Setpoint, state: State<V>) {
        self.flags &= !flags_of(setpoint);
        self.failed = false;
        self.state = state;
    }

    // Ends a teach, and answers what is to be stored.
    fn end(&mut self, setpoint: Setpoint, value: Option<V>) -> Option<(Setpoint, V)> {
        self.state = State::Idle;
        self.failed = value.is_none();
        if value.is_some() {
            self.taught |= if setpoint == Setpoint::Sp1 { 1 } else { 2 };
        }
        value.map(|v| (setpoint, v))
    }

    fn command(&mut self, terms: Terms, code: u8) -> Result<Option<(Setpoint, V)>, Denial> {
        let command = Command::of(code).ok_or(Denial::UnknownCommand)?;
        match (self.state, command) {
            (State::Idle, Command::Single(sp)) => self.begin(sp, State::BusySingle(sp, 0, None)),
            (State::Idle, Command::Point(sp, tp)) => self.begin(sp, State::BusyTwo(sp, tp, 0, None, [None; 2])),
            (State::Idle, Command::Start(sp)) => self.begin(sp, State::DynStart(sp)),
            (State::WaitTwo(sp, points), Command::Point(named, tp)) if sp == named => {
                self.state = State::BusyTwo(sp, tp, 0, None, points);
            }
            (State::WaitTwo(sp, [Some(a), Some(b)]), Command::Apply) if self.flags & flags_of(sp) == flags_of(sp) => {
                let far = a.greater(b) >= a.lesser(b).raise(terms.distance);
                return Ok(self.end(sp, far.then(|| a.middle(b))));
            }
            (State::WaitDyn(sp, _), Command::Start(named)) if sp == named => self.state = State::DynStart(sp),
            (State::WaitDyn(sp, span), Command::Stop(named)) if sp == named => {
                let far = span.highest >= span.lowest.raise(terms.distance);
                return Ok(self.end(sp, far.then(|| span.lowest.middle(span.highest))));
            }
            (State::WaitTwo(sp, _) | State::WaitDyn(sp, _), Command::Cancel) => self.begin(sp, State::Idle),
            _ => return Err(Denial::NotInState),
        }
        Ok(None)
    }

    fn feed(&mut self, terms: Terms, v: V) -> Option<(Setpoint, V)> {
        let taken = |span: Option<Span<V>>| span.map_or(Span { lowest: v, highest: v }, |span| span.with(v));
        match &mut self.state {
            State::BusySingle(sp, count, span) => {
                let captured = taken(*span);
                *count += 1;
                *span = Some(captured);
                if *count < terms.capture {
                    return None;
                }
                let sp = *sp;
                let near = captured.highest <= captured.lowest.raise(terms.spread);
                self.end(sp, near.then(|| captured.lowest.middle(captured.highest)))
            }
            State::BusyTwo(sp, tp, count, span, points) => {
                let captured = taken(*span);
                *count += 1;
                *span = Some(captured);
                if *count < terms.capture {
                    return None;
                }
                points[*tp as usize] = Some(captured.lowest.middle(captured.highest));
                self.flags |= 0x10 << (2 * *sp as u8 + *tp as u8);
                self.state = State::WaitTwo(*sp, *points);
                None
            }
            State::DynStart(sp) => {
                self.state = State::WaitDyn(*sp, Span { lowest: v, highest: v });
                None
            }
            State::WaitDyn(_, span) => {
                *span = span.with(v);
                None
            }
            State::Idle | State::WaitTwo(..) => None,
        }
    }

    fn result(&self) -> u8 {
        let state = match self.state {
            State::BusySingle(..) | State::BusyTwo(..) | State::DynStart(_) => 5,
            State::WaitTwo(..) | State::WaitDyn(..) => 4,
            State::Idle if self.failed => 7,
            State::Idle => self.taught,
        };
        state | self.flags
    }
}

// The sensor.

#[derive(Clone, Copy)]
struct Row<V> {
    hysteresis: u16,
    logic: u8,
    mode: u8,
    active: bool,
    sp1: V,
    sp2: V,
}

impl<V: Kind> Row<V> {
    fn judge(&mut self, v: V) {
        let (lo, hi) = (self.sp1.lesser(self.sp2), self.sp1.greater(self.sp2));
        let (on, off) = match self.mode {
            0 => (false, true),
            1 => (v >= self.sp1, v < self.sp1.lower(self.hysteresis)),
            2 => (lo <= v && v <= hi, v < lo.lower(self.hysteresis) || v > hi.raise(self.hysteresis)),
            _ => (v >= hi, v <= lo && v < hi),
        };
        if on {
            self.active = true;
        } else if off {
            self.active = false;
        }
    }

    fn signal(&self) -> bool {
        self.mode != 0 && self.active != (self.logic == 1)
    }
}

#[derive(Clone, Copy)]
enum Reading<T> {
    Value(T),
    Below,
    Above,
    NoData,
}

struct Setup<'a> {
    serial: u32,
    channels: u8,
    scale: i8,
    terms: Terms,
    low: &'a [u8],
    high: &'a [u8],
}

struct Device<V> {
    #[allow(dead_code)]
    serial: u32,
    terms: Terms,
    scale: u8,
    keypad: bool,
    channels: u8,
    selected: u8,
    low: V,
    high: V,
    teach: Teach<V>,
    rows: [Row<V>; 8],
}

struct Sensor<V> {
    device: Option<Device<V>>,
}

impl<V: Kind> Device<V> {
    fn present(&mut self) -> &mut [Row<V>] {
        let n = usize::from(self.channels).min(8);
        &mut self.rows[..n]
    }

    fn store(&mut self, store: Option<(Setpoint, V)>) {
        if let Some((setpoint, v)) = store {
            let row = &mut self.rows[usize::from(self.selected - 1)];
            match setpoint {
                Setpoint::Sp1 => row.sp1 = v,
                Setpoint::Sp2 => row.sp2 = v,
            }
        }
    }

    fn sample(&mut self, reading: Reading<V>, out: &mut [u8]) -> Result<usize, Fault> {
        let Some(out) = out.get_mut(..V::WIDTH + 2) else {
            return Err(Denial::BufferTooShort.into());
        };
        let reading = match reading {
            Reading::Value(v) if v < self.low => Reading::Below,
            Reading::Value(v) if v > self.high => Reading::Above,
            reading => reading,
        };
        let mut signals = 0;
        for (i, row) in self.present().iter_mut().enumerate() {
            if let Reading::Value(v) = reading {
                row.judge(v);
            }
            signals |= u8::from(row.signal()) << i;
        }
        match reading {
            Reading::Value(v) => {
                let store = self.teach.feed(self.terms, v);
                self.store(store);
                v.write(out);
            }
            Reading::Below => out[..V::WIDTH].copy_from_slice(V::BELOW),
            Reading::Above => out[..V::WIDTH].copy_from_slice(V::ABOVE),
            Reading::NoData => out[..V::WIDTH].copy_from_slice(V::NO_DATA),
        }
        out[V::WIDTH] = self.scale;
        out[V::WIDTH + 1] = signals;
        Ok(V::WIDTH + 2)
    }

    fn access(&self, request: &Request) -> Result<Object, Fault> {
        let Some(object) = Object::at(request.index, self.channels) else {
            return request.deny(Denial::NoIndex);
        };
        if request.subindex > object.parts() {
            return request.deny(Denial::NoSubindex);
        }
        match object {
            Object::SystemCommand if !request.write => return request.deny(Denial::WrongDirection),
            Object::TeachResult if request.write => return request.deny(Denial::WrongDirection),
            _ => {}
        }
        if request.write {
            let length = object.length(request.subindex, V::WIDTH);
            if request.data.len() > length {
                return request.deny(Denial::DataTooLong);
            }
            if request.data.len() < length {
                return request.deny(Denial::DataTooShort);
            }
            if self.keypad {
                return request.deny(Denial::WriteUnderKeypad);
            }
        }
        Ok(object)
    }

    fn setpoint(&self, octets: &[u8], index: u16, subindex: u8) -> Result<V, Fault> {
        let fault = |denial| Fault { denial, index, subindex };
        let v = V::read(octets).ok_or(fault(Denial::NoValue))?;
        if v > self.high {
            return Err(fault(Denial::AboveRange));
        }
        if v < self.low {
            return Err(fault(Denial::BelowRange));
        }
        Ok(v)
    }

    fn write_setpoints(&mut self, row: usize, request: &Request) -> Result<(), Fault> {
        let index = request.index;
        match request.subindex {
            0 => {
                let (first, second) = request.data.split_at(V::WIDTH);
                let first = self.setpoint(first, index, 1)?;
                let second = self.setpoint(second, index, 2)?;
                self.rows[row].sp1 = first;
                self.rows[row].sp2 = second;
            }
            1 => self.rows[row].sp1 = self.setpoint(request.data, index, 1)?,
            _ => self.rows[row].sp2 = self.setpoint(request.data, index, 2)?,
        }
        Ok(())
    }

    fn write_configuration(&mut self, row: usize, request: &Request) -> Result<(), Fault> {
        let bad = |subindex| Fault { denial: Denial::NoValue, index: request.index, subindex };
        let row = &mut self.rows[row];
        match (request.subindex, request.data) {
            (0, &[logic, mode, high, low]) => {
                if logic > 1 {
                    return Err(bad(1));
                }
                if mode > 3 {
                    return Err(bad(2));
                }
                row.logic = logic;
                row.mode = mode;
                row.hysteresis = u16::from_be_bytes([high, low]);
            }
            (1, &[0..=1]) => row.logic = request.data[0],
            (2, &[0..=3]) => row.mode = request.data[0],
            (3, &[high, low]) => row.hysteresis = u16::from_be_bytes([high, low]),
            _ => return Err(bad(request.subindex)),
        }
        Ok(())
    }

    fn write(&mut self, object: Object, request: &Request) -> Result<(), Fault> {
        match object {
            Object::Setpoints(row) => self.write_setpoints(row, request),
            Object::Configuration(row) => self.write_configuration(row, request),
            Object::SystemCommand => match self.teach.command(self.terms, request.data[0]) {
                Ok(store) => {
                    self.store(store);
                    Ok(())
                }
                Err(denial) => request.deny(denial),
            },
            _ => {
                let channel = request.data[0];
                if channel > self.channels {
                    return request.deny(Denial::NoValue);
                }
                self.selected = channel.max(1);
                self.teach = Teach::idle();
                Ok(())
            }
        }
    }

    // Writes the octets of an object, and answers how many they are.
    fn read(&self, object: Object, subindex: u8, out: &mut [u8]) -> usize {
        match object {
            Object::Setpoints(row) => {
                let row = &self.rows[row];
                match subindex {
                    0 => {
                        row.sp1.write(out);
                        row.sp2.write(&mut out[V::WIDTH..]);
                        return 2 * V::WIDTH;
                    }
                    1 => row.sp1.write(out),
                    _ => row.sp2.write(out),
                }
                V::WIDTH
            }
            Object::Configuration(row) => {
                let row = &self.rows[row];
                let [high, low] = row.hysteresis.to_be_bytes();
                match subindex {
                    0 => {
                        out[..4].copy_from_slice(&[row.logic, row.mode, high, low]);
                        4
                    }
                    1 => {
                        out[0] = row.logic;
                        1
                    }
                    2 => {
                        out[0] = row.mode;
                        1
                    }
                    _ => {
                        out[..2].copy_from_slice(&[high, low]);
                        2
                    }
                }
            }
            Object::TeachSelect => {
                out[0] = self.selected;
                1
            }
            _ => {
                out[0] = self.teach.result();
                1
            }
        }
    }

    fn request(&mut self, frame: &[u8], out: &mut [u8]) -> Result<usize, Fault> {
        let Some(out) = out.get_mut(..16) else {
            return Err(Denial::ResponseBuffer.into());
        };
        let request = decode(frame)?;
        let object = match self.access(&request) {
            Ok(object) => object,
            Err(fault) => return refuse(request.write, fault, out),
        };
        if request.write {
            return match self.write(object, &request) {
                Ok(()) => Ok(confirm_write(out)),
                Err(fault) => refuse(true, fault, out),
            };
        }
        let n = self.read(object, request.subindex, &mut out[1..]);
        Ok(confirm_read(n, out))
    }
}

impl<V: Kind> Sensor<V> {
    fn set_up(&mut self, setup: &Setup) -> Result<(), Fault> {
        if self.device.as_ref().is_some_and(|device| device.keypad) {
            return Err(Denial::SetupUnderKeypad.into());
        }
        if !(1..=8).contains(&setup.channels) {
            return Err(Denial::ChannelCount.into());
        }
        let low = V::read(setup.low).ok_or(Denial::NoValue)?;
        let high = V::read(setup.high).ok_or(Denial::NoValue)?;
        if low >= high || low < V::LOWEST_END || high > V::HIGHEST_END {
            return Err(Denial::Range.into());
        }
        if !(1..=64).contains(&setup.terms.capture) {
            return Err(Denial::CaptureLength.into());
        }
        let row = Row { hysteresis: 0, logic: 0, mode: 1, active: false, sp1: low, sp2: high };
        self.device = Some(Device {
            serial: setup.serial,
            terms: setup.terms,
            scale: setup.scale as u8,
            keypad: false,
            channels: setup.channels,
            selected: 1,
            low,
            high,
            teach: Teach::idle(),
            rows: [row; 8],
        });
        Ok(())
    }

    fn sample(&mut self, reading: Reading<&[u8]>, out: &mut [u8]) -> Result<usize, Fault> {
        let device = self.device.as_mut().ok_or(Denial::Blank)?;
        let reading = match reading {
            Reading::Value(octets) => Reading::Value(V::read(octets).ok_or(Denial::NoValue)?),
            Reading::Below => Reading::Below,
            Reading::Above => Reading::Above,
            Reading::NoData => Reading::NoData,
        };
        device.sample(reading, out)
    }

    fn request(&mut self, frame: &[u8], out: &mut [u8]) -> Result<usize, Fault> {
        self.device.as_mut().ok_or(Denial::Blank)?.request(frame, out)
    }
}

// The calls of the rows, as perf/core makes them.

fn read_setup(octets: &[u8]) -> Option<Setup<'_>> {
    let &[a, b, c, d, channels, scale, capture, s, t, x, y, width, ref ends @ ..] = octets else {
        return None;
    };
    let (low, high) = ends.split_at_checked(usize::from(width))?;
    Some(Setup {
        serial: u32::from_be_bytes([a, b, c, d]),
        channels,
        scale: scale as i8,
        terms: Terms {
            capture,
            spread: u16::from_be_bytes([s, t]),
            distance: u16::from_be_bytes([x, y]),
        },
        low,
        high,
    })
}

// The next three are never inlined, so that what a call takes can be counted by their names.
#[inline(never)]
fn timed_set_up<V: Kind>(sensor: &mut Sensor<V>, setup: &Setup) -> Result<(), Fault> {
    sensor.set_up(setup)
}

#[inline(never)]
fn timed_sample<V: Kind>(sensor: &mut Sensor<V>, reading: Reading<&[u8]>, out: &mut [u8]) -> Result<usize, Fault> {
    sensor.sample(reading, out)
}

#[inline(never)]
fn timed_request<V: Kind>(sensor: &mut Sensor<V>, frame: &[u8], out: &mut [u8]) -> Result<usize, Fault> {
    sensor.request(frame, out)
}

#[inline(never)]
fn set_up<V: Kind>(sensor: &mut Sensor<V>, octets: &[u8]) -> Result<usize, Fault> {
    if let Some(setup) = read_setup(octets) {
        timed_set_up(sensor, &setup)?;
    }
    Ok(0)
}

fn perform<V: Kind>(sensor: &mut Sensor<V>, what: u8, octets: &[u8], out: &mut [u8]) -> [u8; 4] {
    let reply = match what {
        1 => set_up(sensor, octets),
        2 => timed_sample(sensor, Reading::Value(octets), out),
        3 => timed_sample(sensor, Reading::Below, out),
        4 => timed_sample(sensor, Reading::Above, out),
        5 => timed_sample(sensor, Reading::NoData, out),
        6 => timed_request(sensor, octets, out),
        _ => Ok(0),
    };
    match reply {
        Ok(n) => [0, n as u8, 0, 0],
        Err(fault) => {
            let [high, low] = fault.index.to_be_bytes();
            [fault.denial as u8, fault.subindex, high, low]
        }
    }
}

fn parts(row: &[u8]) -> Option<(u8, usize, &[u8])> {
    let [what, n, room, octets @ ..] = row else {
        return None;
    };
    Some((*what, usize::from(*room).min(64), octets.get(..usize::from(*n))?))
}

fn make<V: Kind>(sensor: &mut Sensor<V>, rows: &[u8]) -> u32 {
    let mut sum = 0u32;
    let mut out = [0u8; 64];
    for row in rows.chunks_exact(64) {
        if let Some((what, room, octets)) = parts(row) {
            let [denial, n, ..] = perform(sensor, what, octets, &mut out[..room]);
            let told = u32::from(denial) + u32::from(n) + u32::from(out[3]);
            sum = sum.wrapping_mul(31).wrapping_add(told);
        }
    }
    sum
}

fn run<V: Kind>(first: &[u8], rows: &[u8], times: u32) -> u32 {
    let mut sensor = Sensor::<V> { device: None };
    let mut sum = make(&mut sensor, first);
    for _ in 0..times {
        sum = sum.wrapping_mul(31).wrapping_add(make(&mut sensor, rows));
    }
    sum
}

fn trace<V: Kind>(rows: &[u8], log: &mut [u8]) {
    let mut sensor = Sensor::<V> { device: None };
    for (row, told) in rows.chunks_exact(64).zip(log.chunks_exact_mut(68)) {
        if let Some((what, room, octets)) = parts(row) {
            let (head, tail) = told.split_at_mut(4);
            tail.fill(0xaa);
            head.copy_from_slice(&perform(&mut sensor, what, octets, &mut tail[..room]));
        }
    }
}

/// # Safety
/// The pointers are to as many octets as the lengths say.
#[unsafe(no_mangle)]
pub unsafe extern "C" fn hand_rust_run(
    first: *const u8,
    first_length: usize,
    rows: *const u8,
    n: usize,
    times: u32,
) -> u32 {
    let first = unsafe { std::slice::from_raw_parts(first, first_length) };
    let rows = unsafe { std::slice::from_raw_parts(rows, n) };
    run::<Measured>(first, rows, times)
}

/// # Safety
/// The pointers are to as many octets as the lengths say.
#[unsafe(no_mangle)]
pub unsafe extern "C" fn hand_rust_trace(rows: *const u8, n: usize, log: *mut u8, log_length: usize) {
    let rows = unsafe { std::slice::from_raw_parts(rows, n) };
    let log = unsafe { std::slice::from_raw_parts_mut(log, log_length) };
    trace::<Measured>(rows, log)
}

#[unsafe(no_mangle)]
pub extern "C" fn hand_rust_size() -> usize {
    size_of::<Sensor<Measured>>()
}
