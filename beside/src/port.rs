//! What the port answers to a case, through the exported library (include/movaleduft.h), as bindings/rust declares it.
//! Every lent place is looked at after the call: what is not answered keeps its bytes.
use crate::answer::{bits, Answer, Case};
use crate::noise::{self, Counts};
use crate::ops::{self, Offered, State};
use movaleduft::c;

/// No call may touch a value that it does not answer.
const MARK: u64 = 0x5555_5555_5555_5555;

/// Runs a call with room for a refusal's values: it keeps them, or fills all three.
fn told(call: impl FnOnce(*mut u64) -> u64) -> Answer {
    let mut values = [MARK; 4];
    let refusal = call(values.as_mut_ptr());
    let n = unsafe { c::mvd_value_count(refusal) };
    assert!(values[3] == MARK, "more than three values were written");
    let rest = if refusal == 0 { MARK } else { 0 };
    assert!(values[n..3].iter().all(|&v| v == rest), "a value past the last was written");
    Answer::refused(refusal, &values[..n])
}

fn whole(ns: &[i64]) -> Answer {
    Answer { whole: ns.iter().map(|&n| n as i128).collect(), ..Answer::default() }
}

macro_rules! read {
    ($f:ident, $c:expr, $t:ty) => {{
        let mut value: $t = 77 as $t;
        let r = told(|v| unsafe { c::$f($c.data.as_ptr(), $c.data.len(), $c.a as usize, &mut value, v) });
        if r.refusal == 0 {
            whole(&[value as i64])
        } else {
            assert!(value == 77 as $t, "a refusal wrote");
            r
        }
    }};
}

macro_rules! read_float {
    ($f:ident, $c:expr $(, $scale:expr)?) => {{
        let mut value = ops::KEPT;
        let r = told(|v| unsafe { c::$f($c.data.as_ptr(), $c.data.len(), $c.a as usize, $($scale,)? &mut value, v) });
        if r.refusal == 0 {
            Answer { figures: vec![bits(value)], ..r }
        } else {
            assert!(value == ops::KEPT, "a refusal wrote");
            r
        }
    }};
}

macro_rules! write {
    ($f:ident, $c:expr, $val:expr) => {{
        let mut buf = $c.data.clone();
        let r = told(|v| unsafe { c::$f(buf.as_mut_ptr(), buf.len(), $c.a as usize, $val, v) });
        Answer { bytes: buf, ..r }
    }};
}

/// A record of some whole numbers and some floats; one of each more is lent, which must stay.
fn record(wholes: usize, floats: usize, call: impl FnOnce(*mut i32, *mut f64, *mut u64) -> u64) -> Answer {
    let mut w = vec![-55_555i32; wholes + 1];
    let mut x = vec![ops::KEPT; floats + 1];
    let r = told(|v| call(w.as_mut_ptr(), x.as_mut_ptr(), v));
    if r.refusal != 0 {
        assert!(w.iter().all(|&n| n == -55_555) && x.iter().all(|&y| y == ops::KEPT), "a refusal wrote");
        return r;
    }
    assert!(w[wholes] == -55_555 && x[floats] == ops::KEPT, "more was written than the record has");
    Answer {
        whole: w[..wholes].iter().map(|&n| n as i128).collect(),
        figures: x[..floats].iter().map(|&y| bits(y)).collect(),
        ..r
    }
}

fn open(c: &Case) -> Answer {
    let mut header = [MARK; 5];
    let r = told(|v| unsafe { c::mvd_open(c.data.as_ptr(), c.data.len(), header.as_mut_ptr(), v) });
    assert!(header[4] == MARK && (r.refusal == 0 || header[0] == MARK), "more of the header was written");
    let said = if r.refusal == 0 { header[..4].iter().map(|&n| n as i128).collect() } else { r.whole };
    Answer { whole: said, ..r }
}

fn copy_payload(c: &Case) -> Answer {
    let mut buf = vec![ops::UNTOUCHED; c.a as usize];
    let mut length = 77usize;
    let r = told(|v| unsafe {
        c::mvd_copy_payload(c.data.as_ptr(), c.data.len(), buf.as_mut_ptr(), buf.len(), &mut length, v)
    });
    assert!(r.refusal == 0 || length == 77, "a refusal wrote");
    let said = if r.refusal == 0 { vec![length as i128] } else { r.whole };
    Answer { whole: said, bytes: buf, ..r }
}

fn encode(c: &Case) -> Answer {
    let mut buf = vec![ops::UNTOUCHED; c.b as usize];
    let mut length = 77usize;
    let (dest, src, type_id) = ((c.a >> 16) as u8, (c.a >> 8) as u8, c.a as u8);
    let r = told(|v| unsafe {
        let (p, n, w, room) = (c.data.as_ptr(), c.data.len(), buf.as_mut_ptr(), buf.len());
        c::mvd_encode(dest, src, type_id, p, n, w, room, &mut length, v)
    });
    assert!(r.refusal == 0 || length == 77, "a refusal wrote");
    let said = if r.refusal == 0 { vec![length as i128] } else { r.whole };
    Answer { whole: said, bytes: buf, ..r }
}

/// A state and its hold buffer.
#[derive(Clone, PartialEq)]
struct Splitter {
    /// The count, the mark and the counts.
    words: [u64; 7],
    hold: Vec<u8>,
}

struct Fed {
    event: u64,
    taken: usize,
    frame: Option<(bool, usize, usize)>,
}

impl Splitter {
    /// Fresh; what its hold buffer has at the start is nobody's.
    fn new(room: usize, old: u8) -> Self {
        Self { words: [0; 7], hold: vec![old; room] }
    }

    fn count(&self) -> usize {
        self.words[0] as usize
    }

    fn counts(&self) -> Counts {
        let [_, _, counts @ ..] = self.words;
        counts
    }

    /// One call, or its refusal, which alters nothing. One number more of each is lent, which must stay.
    fn feed(&mut self, chunk: &[u8]) -> Result<Fed, Answer> {
        let old = self.clone();
        let (mut fed, mut words) = ([MARK; 6], [MARK; 8]);
        words[..7].copy_from_slice(&self.words);
        let r = told(|v| unsafe {
            let (s, h, room, f) = (words.as_mut_ptr(), self.hold.as_mut_ptr(), self.hold.len(), fed.as_mut_ptr());
            c::mvd_feed(s, h, room, chunk.as_ptr(), chunk.len(), f, v)
        });
        assert!(fed[5] == MARK && words[7] == MARK, "more was written than the call answers");
        self.words.copy_from_slice(&words[..7]);
        if r.refusal != 0 {
            assert!(*self == old && fed == [MARK; 6], "a refusal altered the state, the hold buffer or the answer");
            return Err(r);
        }
        let counts = self.counts();
        assert!(noise::balance(counts) && counts[4] == self.words[0], "the counts do not balance");
        assert_eq!(counts[0] - old.counts()[0], fed[1], "other bytes were counted than taken");
        let frame = (fed[0] == 1).then(|| (fed[2] == 1, fed[3] as usize, fed[4] as usize));
        Ok(Fed { event: fed[0], taken: fed[1] as usize, frame })
    }

    /// A chunk, and each untaken rest again until none is left. Each call is held to document 01's words on the hold buffer: it
    /// writes exactly the bytes it adds, from the old count on.
    fn offer(&mut self, mut chunk: &[u8], answer: &mut Answer) -> Result<(), Answer> {
        loop {
            let (old_hold, old_count) = (self.hold.clone(), self.count());
            let fed = self.feed(chunk)?;
            assert!(fed.taken <= chunk.len() && (fed.taken > 0 || chunk.is_empty()), "taken {} of {}", fed.taken, chunk.len());
            let added = match fed.frame {
                Some((true, _, len)) => len - old_count,
                Some((false, _, _)) => 0,
                None => self.count().saturating_sub(old_count),
            };
            let mut expected = old_hold;
            expected[old_count..old_count + added].copy_from_slice(&chunk[fed.taken - added..fed.taken]);
            assert!(fed.event != 0 || self.count() >= old_count || self.words[1] == 1, "held bytes were lost");
            assert!(self.hold == expected, "the hold buffer has other bytes than those added");
            match (fed.event, fed.frame) {
                (1, Some((in_hold, start, len))) => {
                    answer.whole.push(len as i128);
                    answer.bytes.extend_from_slice(&(if in_hold { &self.hold } else { chunk })[start..start + len]);
                }
                (2, _) => answer.whole.push(-1),
                _ => assert_eq!(fed.taken, chunk.len(), "More with bytes untaken"),
            }
            chunk = &chunk[fed.taken..];
            if chunk.is_empty() {
                return Ok(());
            }
        }
    }

    /// The count, the mark and the counts at the end, and the bytes held.
    fn end(self, mut answer: Answer) -> Answer {
        answer.whole.extend(self.words.map(i128::from));
        answer.bytes.extend_from_slice(&self.hold[..self.count()]);
        answer
    }
}

fn split(c: &Case) -> Answer {
    let mut s = Splitter::new(c.a as usize, c.b as u8);
    let mut answer = Answer::default();
    let offered = Offered::of(c).expect("a split starts fresh");
    let told = offered.chunks.iter().try_for_each(|chunk| s.offer(chunk, &mut answer));
    told.map_or_else(|refused| refused, |()| s.end(answer))
}

/// A state that the caller gives: refused at the first call, or it goes on as a split does.
fn state(c: &Case) -> Answer {
    let State { count, hold, mark, counts: [taken, dropped, framed, lost, held], chunk } = State::of(c);
    let words = [count, mark.into(), taken, dropped, framed, lost, held];
    let mut s = Splitter { words, hold: vec![ops::UNTOUCHED; hold as usize] };
    let mut answer = Answer::default();
    s.offer(chunk, &mut answer).map_or_else(|refused| refused, |()| s.end(answer))
}

fn speed(c: &Case) -> Answer {
    let room = c.a as usize;
    let mut speeds = vec![ops::KEPT; room];
    let (mut w, mut samples, mut t) = ([-55_555i32; 5], 77usize, ops::KEPT);
    let mut r = told(|v| unsafe {
        let (s, w) = (speeds.as_mut_ptr(), w.as_mut_ptr());
        c::mvd_speed_profile(c.data.as_ptr(), c.data.len(), s, room, w, &mut samples, &mut t, v)
    });
    assert!(w[4] == -55_555, "more was written than the record has");
    if r.refusal == 0 {
        r.whole = w[..4].iter().map(|&n| n as i128).collect();
        r.whole.push(samples as i128);
        r.figures = vec![bits(t)];
    } else {
        assert!(w[0] == -55_555 && samples == 77 && t == ops::KEPT, "a refusal wrote");
    }
    r.figures.extend(speeds.iter().map(|&x| bits(x)));
    r
}

/// One of each more is lent, which must stay.
fn tracking(c: &Case) -> Answer {
    let (mut counts, mut w) = ([MARK; 17], [-55_555i32; 5]);
    let mut r = told(|v| unsafe {
        c::mvd_tracking_status(c.data.as_ptr(), c.data.len(), counts.as_mut_ptr(), w.as_mut_ptr(), v)
    });
    if r.refusal != 0 {
        assert!(counts == [MARK; 17] && w == [-55_555; 5], "a refusal wrote");
        return r;
    }
    assert!(counts[16] == MARK && w[4] == -55_555, "more was written than the record has");
    r.whole.extend(counts[..16].iter().map(|&n| n as i128));
    r.whole.extend(w[..4].iter().map(|&n| n as i128));
    r
}

fn prc_data(c: &Case) -> Answer {
    let (mut sequence, mut points) = (-5_555i16, 77usize);
    let r = told(|v| unsafe { c::mvd_prc_data(c.data.as_ptr(), c.data.len(), &mut sequence, &mut points, v) });
    if r.refusal != 0 {
        assert!(sequence == -5_555 && points == 77, "a refusal wrote");
        return r;
    }
    whole(&[sequence as i64, points as i64])
}

/// Yes or no of a payload's record.
fn test(call: impl FnOnce(*mut u8, *mut u64) -> u64) -> Answer {
    let mut yes = 7u8;
    let r = told(|v| call(&mut yes, v));
    assert!(r.refusal == 0 || yes == 7, "a refusal wrote");
    if r.refusal == 0 {
        whole(&[yes as i64])
    } else {
        r
    }
}

fn text(c: &Case) -> Answer {
    let (mut start, mut len) = (usize::MAX, usize::MAX);
    unsafe { c::mvd_shot_text(c.data.as_ptr(), c.data.len(), &mut start, &mut len) };
    let part = &c.data[start..start + len];
    let (p, n) = (part.as_ptr(), part.len());
    let said = unsafe { [c::mvd_is_processed(p, n), c::mvd_is_idle(p, n), c::mvd_is_trigger(p, n)] };
    Answer { bytes: part.to_vec(), ..whole(&[&[start as i64, len as i64][..], &said.map(i64::from)].concat()) }
}

fn field(c: &Case) -> Answer {
    let (mut count, mut figure, mut is_figure) = (-55_555i32, ops::KEPT, 7u8);
    let r = told(|v| unsafe {
        let (p, n) = (c.data.as_ptr(), c.data.len());
        c::mvd_field(c.b as u8, p, n, c.a as usize, &mut count, &mut figure, &mut is_figure, v)
    });
    assert!(count == -55_555 || figure == ops::KEPT, "a count and a figure were written");
    assert!(r.refusal == 0 || (count == -55_555 && figure == ops::KEPT && is_figure == 7), "a refusal wrote");
    match (r.refusal, is_figure) {
        (0, 1) => Answer { figures: vec![bits(figure)], ..r },
        (0, _) => whole(&[count as i64]),
        _ => r,
    }
}

/// A call that writes into a lent buffer.
fn lent(mut buf: Vec<u8>, call: impl FnOnce(*mut u8, usize, *mut u64) -> u64) -> Answer {
    let r = told(|v| call(buf.as_mut_ptr(), buf.len(), v));
    Answer { bytes: buf, ..r }
}

pub fn ask(c: &Case) -> Answer {
    let (d, n, at) = (c.data.as_ptr(), c.data.len(), c.a as usize);
    match c.op {
        ops::READ_INT16..=ops::WRITE_FLOAT40_BITS => at_a_place(c),
        ops::OPEN => open(c),
        ops::COPY_PAYLOAD => copy_payload(c),
        ops::ENCODE => encode(c),
        ops::SPLIT => split(c),
        ops::STATE | ops::COUNTED => state(c),
        ops::FLIGHT_RESULT => record(8, 44, |w, x, v| unsafe { c::mvd_flight_result(d, n, w, x, v) }),
        ops::FLIGHT_RESULT_V1 => record(4, 27, |w, x, v| unsafe { c::mvd_flight_result_v1(d, n, w, x, v) }),
        ops::CLUB_RESULT => record(3, 53, |w, x, v| unsafe { c::mvd_club_result(d, n, w, x, v) }),
        ops::SPIN_RESULT => record(46, 16, |w, x, v| unsafe { c::mvd_spin_result(d, n, w, x, v) }),
        ops::TRACKING_STATUS => tracking(c),
        ops::SPEED_PROFILE => speed(c),
        ops::PRC_DATA => prc_data(c),
        ops::PRC_POINT => record(8, 16, |w, x, v| unsafe { c::mvd_prc_point(d, n, at, w, x, v) }),
        ops::CLUB_PRC => whole(&[unsafe { c::mvd_club_prc(d, n) } as i64]),
        ops::CLUB_PRC_POINT => record(9, 20, |w, x, v| unsafe { c::mvd_club_prc_point(d, n, at, w, x, v) }),
        ops::ENCODE_REQUEST => lent(c.data.clone(), |b, bn, v| unsafe { c::mvd_encode_request(c.b as u16, b, bn, v) }),
        ops::SHOT_TEXT => text(c),
        ops::IS_MODEL_FAILURE => test(|yes, v| unsafe { c::mvd_is_model_failure(d, n, yes, v) }),
        ops::IS_NO_READ => test(|yes, v| unsafe { c::mvd_is_no_read(d, n, yes, v) }),
        ops::IS_FAILED => test(|yes, v| unsafe { c::mvd_is_failed(at, d, n, yes, v) }),
        ops::IS_FAILED_V1 => test(|yes, v| unsafe { c::mvd_is_failed_v1(at, d, n, yes, v) }),
        ops::FIELD => field(c),
        ops::BAY_LOG => {
            let buf = vec![ops::UNTOUCHED; c.b as usize];
            lent(buf, |b, bn, v| unsafe { c::mvd_bay_log(c.a as u32, d, n, b, bn, v) })
        }
        other => panic!("no operation {other:02x}"),
    }
}

/// A field that is read or written at a place.
fn at_a_place(c: &Case) -> Answer {
    let val = c.b as u32;
    match c.op {
        ops::READ_INT16 => read!(mvd_read_int16, c, i16),
        ops::READ_UINT16 => read!(mvd_read_uint16, c, u16),
        ops::READ_INT24 => read!(mvd_read_int24, c, i32),
        ops::READ_UINT24 => read!(mvd_read_uint24, c, u32),
        ops::READ_INT32 => read!(mvd_read_int32, c, i32),
        ops::READ_UINT32 => read!(mvd_read_uint32, c, u32),
        ops::READ_FLOAT40 => read_float!(mvd_read_float40, c),
        ops::READ_INT24_SCALED => read_float!(mvd_read_int24_scaled, c, f64::from_bits(c.b)),
        ops::READ_INT16_SCALED => read_float!(mvd_read_int16_scaled, c, f64::from_bits(c.b)),
        ops::WRITE_INT16 => write!(mvd_write_int16, c, val as i16),
        ops::WRITE_UINT16 => write!(mvd_write_uint16, c, val as u16),
        ops::WRITE_INT24 => write!(mvd_write_int24, c, val as i32),
        ops::WRITE_UINT24 => write!(mvd_write_uint24, c, val),
        ops::WRITE_INT32 => write!(mvd_write_int32, c, val as i32),
        ops::WRITE_UINT32 => write!(mvd_write_uint32, c, val),
        ops::WRITE_FLOAT40 => write!(mvd_write_float40_bits, c, f64::from_bits(c.b).to_bits()),
        ops::WRITE_FLOAT40_BITS => write!(mvd_write_float40_bits, c, c.b),
        other => panic!("no operation {other:02x}"),
    }
}
