//! The messages of a shot (ironsight's protocol/shot.rs), decoded by the library; then a field by number, the league's rules and
//! the bay log's record, which the port adds. Directions are as the radar measures them: positive is left of the target line.
use crate::error::{Result, WireError};
use crate::ffi;

/// A record's floats, taken in the record's order.
struct Figures<'a>(&'a [f64]);

impl Figures<'_> {
    fn one(&mut self) -> f64 {
        let [x] = self.some();
        x
    }

    fn some<const N: usize>(&mut self) -> [f64; N] {
        let (front, rest) = self.0.split_first_chunk().expect("the record has as many floats");
        self.0 = rest;
        *front
    }
}

// ---- D4

/// D4: the ball's flight, once a shot. Places are forward, up and to the left, in metres.
#[derive(Debug, Clone, PartialEq)]
pub struct FlightResult {
    /// The shot's number.
    pub total: i32,
    /// How long it was tracked, s.
    pub track_time: f64,
    /// Where it started.
    pub start_position: [f64; 3],
    /// Launch speed, m/s.
    pub launch_speed: f64,
    /// Launch azimuth, degrees.
    pub launch_azimuth: f64,
    /// Launch elevation, degrees.
    pub launch_elevation: f64,
    /// Carry, m.
    pub carry_distance: f64,
    /// Flight time, s.
    pub flight_time: f64,
    /// Greatest height, m.
    pub max_height: f64,
    /// Where it landed.
    pub landing_position: [f64; 3],
    /// Backspin, rpm.
    pub backspin_rpm: i32,
    /// Sidespin, rpm: positive curves to the left.
    pub sidespin_rpm: i32,
    /// Riflespin, rpm.
    pub riflespin_rpm: i32,
    /// The three spins at landing, rpm.
    pub landing_spin_rpm: [i32; 3],
    /// Velocity at landing, m/s.
    pub landing_velocity: [f64; 3],
    /// Total distance, m; the radar does not fill it.
    pub total_distance: f64,
    /// Roll, m; the radar does not fill it.
    pub roll_distance: f64,
    /// Where it stopped; the radar does not fill it.
    pub final_position: [f64; 3],
    /// Club head speed, m/s.
    pub clubhead_speed: f64,
    /// Club path, degrees.
    pub club_strike_direction: f64,
    /// Attack angle, degrees.
    pub club_attack_angle: f64,
    /// Club head speed after impact, m/s.
    pub clubhead_speed_post: f64,
    /// Tilt of the swing plane, degrees.
    pub club_swing_plane_tilt: f64,
    /// Rotation of the swing plane, degrees.
    pub club_swing_plane_rotation: f64,
    /// Effective loft, degrees.
    pub club_effective_loft: f64,
    /// Face angle, degrees.
    pub club_face_angle: f64,
    /// What the coefficients were divided by, or 0 for 1.
    pub poly_scale: i32,
    /// The path's coefficients, forward.
    pub poly_x: [f64; 5],
    /// The path's coefficients, up.
    pub poly_y: [f64; 5],
    /// The path's coefficients, to the left.
    pub poly_z: [f64; 5],
}

impl FlightResult {
    /// Decodes a payload of at least 157 bytes.
    ///
    /// # Errors
    ///
    /// [`PayloadTooShort`](WireError::PayloadTooShort) below that.
    pub fn decode(payload: &[u8]) -> Result<Self> {
        let (whole, figures) = ffi::flight_result(payload)?;
        let [total, backspin_rpm, sidespin_rpm, riflespin_rpm, spin_0, spin_1, spin_2, poly_scale] = whole;
        let mut x = Figures(&figures);
        Ok(Self {
            total,
            track_time: x.one(),
            start_position: x.some(),
            launch_speed: x.one(),
            launch_azimuth: x.one(),
            launch_elevation: x.one(),
            carry_distance: x.one(),
            flight_time: x.one(),
            max_height: x.one(),
            landing_position: x.some(),
            backspin_rpm,
            sidespin_rpm,
            riflespin_rpm,
            landing_spin_rpm: [spin_0, spin_1, spin_2],
            landing_velocity: x.some(),
            total_distance: x.one(),
            roll_distance: x.one(),
            final_position: x.some(),
            clubhead_speed: x.one(),
            club_strike_direction: x.one(),
            club_attack_angle: x.one(),
            clubhead_speed_post: x.one(),
            club_swing_plane_tilt: x.one(),
            club_swing_plane_rotation: x.one(),
            club_effective_loft: x.one(),
            club_face_angle: x.one(),
            poly_scale,
            poly_x: x.some(),
            poly_y: x.some(),
            poly_z: x.some(),
        })
    }

    /// Whether the radar's distance model failed: launch speed is at most zero, or no number. This is [`LeagueRule::Rule1`].
    #[must_use]
    pub fn is_model_failure(&self) -> bool {
        self.launch_speed.is_nan() || self.launch_speed <= 0.0
    }

    /// Whether the shot of a D4 payload failed by the league's rule.
    ///
    /// # Errors
    ///
    /// As [`decode`](Self::decode).
    pub fn payload_failed(rule: LeagueRule, payload: &[u8]) -> Result<bool> {
        ffi::is_failed(rule as usize, payload)
    }
}

// ---- E8

/// E8: the ball's flight, early and in part, before D4.
#[derive(Debug, Clone, PartialEq)]
pub struct FlightResultV1 {
    /// The shot's number.
    pub total: i32,
    /// Club velocity, m/s.
    pub club_velocity: f64,
    /// Ball velocity, m/s.
    pub ball_velocity: f64,
    /// Flight time, s.
    pub flight_time: f64,
    /// Distance, m.
    pub distance: f64,
    /// Height, m.
    pub height: f64,
    /// How far to the left it landed, m.
    pub lateral: f64,
    /// Elevation, degrees.
    pub elevation: f64,
    /// Azimuth, degrees.
    pub azimuth: f64,
    /// How long it was tracked, s.
    pub tracked_time: f64,
    /// Drag coefficient.
    pub drag: f64,
    /// Backspin, rpm.
    pub backspin_rpm: i32,
    /// Sidespin, rpm.
    pub sidespin_rpm: i32,
    /// Acceleration.
    pub acceleration: f64,
    /// Club path, degrees.
    pub club_strike_direction: f64,
    /// What the coefficients were divided by, or below 1 for 1.
    pub poly_scale: i32,
    /// The path's coefficients, forward.
    pub poly_x: [f64; 5],
    /// The path's coefficients, up.
    pub poly_y: [f64; 5],
    /// The path's coefficients, to the left.
    pub poly_z: [f64; 5],
}

impl FlightResultV1 {
    /// Decodes a payload of at least 94 bytes.
    ///
    /// # Errors
    ///
    /// [`PayloadTooShort`](WireError::PayloadTooShort) below that.
    pub fn decode(payload: &[u8]) -> Result<Self> {
        let ([total, backspin_rpm, sidespin_rpm, poly_scale], figures) = ffi::flight_result_v1(payload)?;
        let mut x = Figures(&figures);
        Ok(Self {
            total,
            club_velocity: x.one(),
            ball_velocity: x.one(),
            flight_time: x.one(),
            distance: x.one(),
            height: x.one(),
            lateral: x.one(),
            elevation: x.one(),
            azimuth: x.one(),
            tracked_time: x.one(),
            drag: x.one(),
            backspin_rpm,
            sidespin_rpm,
            acceleration: x.one(),
            club_strike_direction: x.one(),
            poly_scale,
            poly_x: x.some(),
            poly_y: x.some(),
            poly_z: x.some(),
        })
    }

    /// Whether the radar read no ball: ball velocity is at most zero, or no number. This is [`LeagueRule::Rule1`].
    #[must_use]
    pub fn is_no_read(&self) -> bool {
        self.ball_velocity.is_nan() || self.ball_velocity <= 0.0
    }

    /// Whether the shot of an E8 payload failed by the league's rule.
    ///
    /// # Errors
    ///
    /// As [`decode`](Self::decode).
    pub fn payload_failed(rule: LeagueRule, payload: &[u8]) -> Result<bool> {
        ffi::is_failed_v1(rule as usize, payload)
    }
}

// ---- ED

/// ED: the club head, twice a shot.
#[derive(Debug, Clone, PartialEq)]
pub struct ClubResult {
    /// How many club points there are.
    pub num_club_prc_points: u8,
    /// Flags.
    pub flags: i32,
    /// Club speed before impact, m/s.
    pub pre_club_speed: f64,
    /// Club speed after impact, m/s.
    pub post_club_speed: f64,
    /// Club path, degrees.
    pub strike_direction: f64,
    /// Attack angle, degrees.
    pub attack_angle: f64,
    /// Face angle, degrees.
    pub face_angle: f64,
    /// Dynamic loft, degrees.
    pub dynamic_loft: f64,
    /// Smash factor.
    pub smash_factor: f64,
    /// Dispersion correction.
    pub dispersion_correction: f64,
    /// Direction of the swing plane, degrees.
    pub swing_plane_horizontal: f64,
    /// Tilt of the swing plane, degrees.
    pub swing_plane_vertical: f64,
    /// Club azimuth, degrees.
    pub club_azimuth: f64,
    /// Club elevation, degrees.
    pub club_elevation: f64,
    /// Club offset, m.
    pub club_offset: f64,
    /// Club height, m.
    pub club_height: f64,
    /// What the coefficients were divided by, or 0 for 1.
    pub poly_scale: i32,
    /// Twelve polynomials of three coefficients, before and after impact in turn: v, x, y, z, yx, zx.
    pub poly_coeffs: [[f64; 3]; 12],
    /// Time before impact, ms.
    pub pre_impact_time: f64,
    /// Time after impact, ms.
    pub post_impact_time: f64,
    /// Time from club to ball, ms.
    pub club_to_ball_time: f64,
}

impl ClubResult {
    /// Decodes a payload of at least 167 bytes.
    ///
    /// # Errors
    ///
    /// [`PayloadTooShort`](WireError::PayloadTooShort) below that.
    pub fn decode(payload: &[u8]) -> Result<Self> {
        let ([num_club_prc_points, flags, poly_scale], figures) = ffi::club_result(payload)?;
        let mut x = Figures(&figures);
        Ok(Self {
            num_club_prc_points: num_club_prc_points as u8,
            flags,
            pre_club_speed: x.one(),
            post_club_speed: x.one(),
            strike_direction: x.one(),
            attack_angle: x.one(),
            face_angle: x.one(),
            dynamic_loft: x.one(),
            smash_factor: x.one(),
            dispersion_correction: x.one(),
            swing_plane_horizontal: x.one(),
            swing_plane_vertical: x.one(),
            club_azimuth: x.one(),
            club_elevation: x.one(),
            club_offset: x.one(),
            club_height: x.one(),
            poly_scale,
            poly_coeffs: [(); 12].map(|()| x.some()),
            pre_impact_time: x.one(),
            post_impact_time: x.one(),
            club_to_ball_time: x.one(),
        })
    }
}

// ---- EF

/// What one antenna group measured in one range bin.
#[derive(Debug, Clone, Default, PartialEq)]
pub struct AntennaElement {
    /// Spin, rpm.
    pub spin_rpm: i16,
    /// Peak strength.
    pub peak: f64,
    /// Signal to noise.
    pub snr: i16,
}

/// EF: the spin, once a shot.
#[derive(Debug, Clone, PartialEq)]
pub struct SpinResult {
    /// Version byte.
    pub version: u8,
    /// Five antenna groups, three range bins each.
    pub antenna_data: [[AntennaElement; 3]; 5],
    /// Spin by PM, raw, rpm.
    pub pm_spin_raw: i16,
    /// Spin by PM, final, rpm: the one that counts.
    pub pm_spin_final: i16,
    /// Confidence of that, 0 to 100.
    pub pm_spin_confidence: i16,
    /// Spin by lift, rpm.
    pub lift_spin: i16,
    /// Spin expected, rpm.
    pub spin_validate_expected: i16,
    /// The least spin that is valid, rpm.
    pub spin_validate_low: i16,
    /// The greatest spin that is valid, rpm.
    pub spin_validate_high: i16,
    /// Scaling of that test.
    pub spin_validate_scaling: i16,
    /// Which method was chosen.
    pub spin_method: u8,
    /// Flags.
    pub spin_flags: i32,
    /// Spin at launch, rpm.
    pub launch_spin: i16,
    /// Spin by AM, rpm.
    pub am_spin: i16,
    /// Spin by PM, rpm.
    pub pm_spin: i16,
    /// Spin axis, degrees.
    pub spin_axis: f64,
    /// Spin by AOD, rpm.
    pub aod_spin: i16,
    /// Spin by PLL, rpm.
    pub pll_spin: i16,
}

impl SpinResult {
    /// Decodes a payload of at least 138 bytes.
    ///
    /// # Errors
    ///
    /// [`PayloadTooShort`](WireError::PayloadTooShort) below that.
    pub fn decode(payload: &[u8]) -> Result<Self> {
        let (whole, figures) = ffi::spin_result(payload)?;
        let mut x = Figures(&figures);
        let mut n = whole.into_iter();
        let mut int16 = || n.next().expect("the record has as many whole numbers") as i16;
        let version = int16() as u8;
        let mut element = || AntennaElement { spin_rpm: int16(), snr: int16(), peak: x.one() };
        let antenna_data = [(); 5].map(|()| [(); 3].map(|()| element()));
        let [raw, last, confidence, lift, expected, low, high, scaling] = [(); 8].map(|()| int16());
        let [.., spin_method, spin_flags, launch_spin, am_spin, pm_spin, aod_spin, pll_spin] = whole;
        Ok(Self {
            version,
            antenna_data,
            pm_spin_raw: raw,
            pm_spin_final: last,
            pm_spin_confidence: confidence,
            lift_spin: lift,
            spin_validate_expected: expected,
            spin_validate_low: low,
            spin_validate_high: high,
            spin_validate_scaling: scaling,
            spin_method: spin_method as u8,
            spin_flags,
            launch_spin: launch_spin as i16,
            am_spin: am_spin as i16,
            pm_spin: pm_spin as i16,
            spin_axis: x.one(),
            aod_spin: aod_spin as i16,
            pll_spin: pll_spin as i16,
        })
    }
}

// ---- D9

/// D9: the club head's speed over time, once a shot.
#[derive(Debug, Clone, PartialEq)]
pub struct SpeedProfile {
    /// Flags byte.
    pub flags: u8,
    /// How many samples lie before impact.
    pub num_pre: u8,
    /// How many samples lie after impact.
    pub num_post: u8,
    /// What the samples were divided by, or 0 for 1.
    pub scale_factor: i32,
    /// Time between two samples, s.
    pub time_interval: f64,
    /// The samples, m/s.
    pub speeds: Vec<f64>,
}

impl SpeedProfile {
    /// Decodes a payload of any length; one below 12 bytes has no samples.
    ///
    /// # Errors
    ///
    /// None: the `Result` is ironsight's.
    pub fn decode(payload: &[u8]) -> Result<Self> {
        let mut speeds = vec![0.0; payload.len().saturating_sub(12) / 2];
        let ([flags, num_pre, num_post, scale_factor], samples, time_interval) = ffi::speed_profile(payload, &mut speeds)?;
        speeds.truncate(samples);
        Ok(Self { flags: flags as u8, num_pre: num_pre as u8, num_post: num_post as u8, scale_factor, time_interval, speeds })
    }
}

// ---- E9

/// E9: how the radar tracked, five times a shot.
#[derive(Debug, Clone, PartialEq, Eq)]
pub struct TrackingStatus {
    /// State byte.
    pub state: u8,
    /// Flags byte.
    pub flags: u8,
    /// Where the buffer before the trigger starts, as a sample's number.
    pub pre_trig_buf_start: u32,
    /// The sample of impact, FFFFFF where it is not found yet.
    pub club_impact_idx: u32,
    /// The sample of the trigger.
    pub trigger_idx: u32,
    /// Calibration 1.
    pub radar_cal1: u32,
    /// Calibration 2.
    pub radar_cal2: u32,
    /// The microcontroller's calibration.
    pub radar_cal_avr: u16,
    /// Which turn of processing.
    pub processing_iteration: u8,
    /// The result's quality.
    pub result_quality: u8,
    /// The detection's subtype.
    pub detection_subtype: u8,
    /// How many ball points were tracked.
    pub prc_tracking_count: u8,
    /// Radar measurement.
    pub radar_measurement: u16,
    /// Trigger flags.
    pub trigger_flags: u8,
    /// Event counter.
    pub event_counter: u16,
    /// Radar baseline.
    pub radar_baseline: i32,
    /// Three measurements after tracking.
    pub track_measure: [i32; 3],
    /// The fourth of them.
    pub track_measure4: u16,
}

impl TrackingStatus {
    /// Decodes a payload of at least 82 bytes.
    ///
    /// # Errors
    ///
    /// [`PayloadTooShort`](WireError::PayloadTooShort) below that.
    pub fn decode(payload: &[u8]) -> Result<Self> {
        let (counts, [radar_baseline, measure_1, measure_2, measure_3]) = ffi::tracking_status(payload)?;
        let [state, flags, pre_trig, impact, trigger, cal1, cal2, cal_avr, rest @ ..] = counts;
        let [iteration, quality, subtype, tracked, measurement, trigger_flags, counter, measure_4] = rest;
        Ok(Self {
            state: state as u8,
            flags: flags as u8,
            pre_trig_buf_start: pre_trig as u32,
            club_impact_idx: impact as u32,
            trigger_idx: trigger as u32,
            radar_cal1: cal1 as u32,
            radar_cal2: cal2 as u32,
            radar_cal_avr: cal_avr as u16,
            processing_iteration: iteration as u8,
            result_quality: quality as u8,
            detection_subtype: subtype as u8,
            prc_tracking_count: tracked as u8,
            radar_measurement: measurement as u16,
            trigger_flags: trigger_flags as u8,
            event_counter: counter as u16,
            radar_baseline,
            track_measure: [measure_1, measure_2, measure_3],
            track_measure4: measure_4 as u16,
        })
    }
}

// ---- EC

/// A point of the ball's track.
#[derive(Debug, Clone, PartialEq)]
pub struct PrcPoint {
    /// The point's number.
    pub index: i16,
    /// Peak.
    pub peak: i16,
    /// Signal to noise.
    pub snr: i32,
    /// Place in the radar's buffer.
    pub buf_idx: i16,
    /// Flags byte.
    pub flags: u8,
    /// Time counter.
    pub time: i32,
    /// Refractive index.
    pub n: f64,
    /// Azimuth, degrees.
    pub az: f64,
    /// Elevation, degrees.
    pub el: f64,
    /// Radial velocity, m/s.
    pub vel: f64,
    /// Distance, m.
    pub dist: f64,
    /// Sync index.
    pub sync_idx: i32,
    /// Sync buffer.
    pub sync_buf: i32,
    /// Azimuth of antenna 1, degrees.
    pub az1: f64,
    /// Azimuth of antenna 2, degrees.
    pub az2: f64,
    /// Azimuth of antenna 3, degrees.
    pub az3: f64,
    /// Elevation of antenna 1, degrees.
    pub el1: f64,
    /// Elevation of antenna 2, degrees.
    pub el2: f64,
    /// Six peak values: INT24 times 10000/2^23.
    pub pk: [f64; 6],
}

impl PrcPoint {
    fn at(payload: &[u8], index: usize) -> Result<Self> {
        let (whole, figures) = ffi::prc_point(payload, index)?;
        let [index, peak, snr, buf_idx, flags, time, sync_idx, sync_buf] = whole;
        let mut x = Figures(&figures);
        Ok(Self {
            index: index as i16,
            peak: peak as i16,
            snr,
            buf_idx: buf_idx as i16,
            flags: flags as u8,
            time,
            n: x.one(),
            az: x.one(),
            el: x.one(),
            vel: x.one(),
            dist: x.one(),
            sync_idx,
            sync_buf,
            az1: x.one(),
            az2: x.one(),
            az3: x.one(),
            el1: x.one(),
            el2: x.one(),
            pk: x.some(),
        })
    }
}

/// EC: points of the ball's track.
#[derive(Debug, Clone, PartialEq)]
pub struct PrcData {
    /// The message's number.
    pub sequence: i16,
    /// The points.
    pub points: Vec<PrcPoint>,
}

impl PrcData {
    /// Decodes a payload of at least 4 bytes; a header that is none of the known ones has no points.
    ///
    /// # Errors
    ///
    /// [`PayloadTooShort`](WireError::PayloadTooShort) below that.
    pub fn decode(payload: &[u8]) -> Result<Self> {
        let (sequence, points) = ffi::prc_data(payload)?;
        let points = (0..points).map(|index| PrcPoint::at(payload, index)).collect::<Result<_>>()?;
        Ok(Self { sequence, points })
    }
}

// ---- EE

/// A point of the club head's track.
#[derive(Debug, Clone, PartialEq)]
pub struct ClubPrcPoint {
    /// The point's number.
    pub index: i16,
    /// Offset from the trigger.
    pub buf_ofs: i16,
    /// Peak.
    pub peak: i16,
    /// Signal to noise.
    pub snr: i32,
    /// Place in the radar's buffer.
    pub buf_idx: i16,
    /// Time counter.
    pub time: i32,
    /// Refractive index.
    pub n: f64,
    /// Azimuth, degrees.
    pub az: f64,
    /// Elevation, degrees.
    pub el: f64,
    /// Velocity, m/s.
    pub vel: f64,
    /// Velocity 2, m/s.
    pub vel2: f64,
    /// Distance, m.
    pub dist: f64,
    /// The field at 30, in thousandths.
    pub f30: f64,
    /// The field at 33, in thousandths.
    pub f33: f64,
    /// Version byte.
    pub version: u8,
    /// The field at 39.
    pub f39: i32,
    /// The field at 42.
    pub f42: i32,
    /// The field at 45, in thousandths.
    pub f45: f64,
    /// Azimuth of antenna 1, degrees.
    pub az1: f64,
    /// Azimuth of antenna 2, degrees.
    pub az2: f64,
    /// Azimuth of antenna 3, degrees.
    pub az3: f64,
    /// Elevation of antenna 1, degrees.
    pub el1: f64,
    /// Elevation of antenna 2, degrees.
    pub el2: f64,
    /// Six peak values: INT24 times 10000/2^23.
    pub pk: [f64; 6],
}

impl ClubPrcPoint {
    fn at(payload: &[u8], index: usize) -> Result<Self> {
        let (whole, figures) = ffi::club_prc_point(payload, index)?;
        let [index, buf_ofs, peak, snr, buf_idx, time, version, f39, f42] = whole;
        let mut x = Figures(&figures);
        Ok(Self {
            index: index as i16,
            buf_ofs: buf_ofs as i16,
            peak: peak as i16,
            snr,
            buf_idx: buf_idx as i16,
            time,
            n: x.one(),
            az: x.one(),
            el: x.one(),
            vel: x.one(),
            vel2: x.one(),
            dist: x.one(),
            f30: x.one(),
            f33: x.one(),
            version: version as u8,
            f39,
            f42,
            f45: x.one(),
            az1: x.one(),
            az2: x.one(),
            az3: x.one(),
            el1: x.one(),
            el2: x.one(),
            pk: x.some(),
        })
    }
}

/// EE: points of the club head's track, a page of them.
#[derive(Debug, Clone, PartialEq)]
pub struct ClubPrc {
    /// The points.
    pub points: Vec<ClubPrcPoint>,
}

impl ClubPrc {
    /// Decodes a payload of any length.
    ///
    /// # Errors
    ///
    /// None: the `Result` is ironsight's.
    pub fn decode(payload: &[u8]) -> Result<Self> {
        let points = (0..ffi::club_prc(payload)).map(|index| ClubPrcPoint::at(payload, index)).collect::<Result<_>>()?;
        Ok(Self { points })
    }

    /// The request for a page of points, 77 bytes, from the point of that index on.
    pub fn encode_request(start_index: u16) -> Vec<u8> {
        let mut request = vec![0; 77];
        ffi::encode_request(start_index, &mut request).expect("the request has its room");
        request
    }
}

// ---- E5

/// E5: the state of a shot's processing, as a text.
#[derive(Debug, Clone, PartialEq, Eq)]
pub struct ShotText {
    /// The text, what is not UTF-8 replaced.
    pub text: String,
}

impl ShotText {
    /// Decodes a payload of any length: bytes below 20 hex are trimmed at both ends.
    ///
    /// # Errors
    ///
    /// None: the `Result` is ironsight's.
    pub fn decode(payload: &[u8]) -> Result<Self> {
        Ok(Self { text: String::from_utf8_lossy(Self::trimmed(payload)).into_owned() })
    }

    /// The text's own bytes, as they lie in the payload; the payload's empty start where nothing remains.
    pub fn trimmed(payload: &[u8]) -> &[u8] {
        let (start, len) = ffi::shot_text(payload);
        &payload[start..start + len]
    }

    /// Whether the text says PROCESSED.
    pub fn is_processed(&self) -> bool {
        ffi::is_processed(self.text.as_bytes())
    }

    /// Whether the text says IDLE.
    pub fn is_idle(&self) -> bool {
        ffi::is_idle(self.text.as_bytes())
    }

    /// Whether the text says BALL TRIGGER.
    pub fn is_trigger(&self) -> bool {
        ffi::is_trigger(self.text.as_bytes())
    }
}

// ---- what the port adds

/// A league's rule for which shots failed.
#[derive(Debug, Clone, Copy, PartialEq, Eq, Hash)]
pub enum LeagueRule {
    /// Launch speed (E8: ball velocity) is at most zero.
    Rule1 = 1,
    /// That, or flight time is at most zero, or carry (E8: distance) is below zero.
    Rule2 = 2,
}

impl LeagueRule {
    /// The rule of a number, 1 or 2.
    ///
    /// # Errors
    ///
    /// [`NoField`](WireError::NoField) for any other.
    pub fn from_number(number: u64) -> Result<Self> {
        match number {
            1 => Ok(Self::Rule1),
            2 => Ok(Self::Rule2),
            _ => Err(WireError::NoField { number }),
        }
    }
}

/// A field asked for by number.
#[derive(Debug, Clone, Copy, PartialEq)]
pub enum Field {
    /// A whole number.
    Count(i32),
    /// A figure, divided by the field's divisor.
    Figure(f64),
}

/// The field of a number of D4 (0 to 51), E8 (0 to 30) or ED (0 to 54), the message given by its type byte.
///
/// # Errors
///
/// [`NoField`](WireError::NoField) for another type byte; then [`PayloadTooShort`](WireError::PayloadTooShort); then `NoField` for
/// another number.
pub fn field(message: u8, payload: &[u8], number: usize) -> Result<Field> {
    ffi::field(message, payload, number)
}

/// The bay log's record of a D4 payload: the event number, D4, and the shot's figures, five of them to the nearest tenth.
///
/// # Errors
///
/// [`PayloadTooShort`](WireError::PayloadTooShort) below 157 bytes.
pub fn bay_log(event: u32, payload: &[u8]) -> Result<[u8; 32]> {
    ffi::bay_log(event, payload)
}
