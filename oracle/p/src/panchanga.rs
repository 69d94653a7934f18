//! panchanga.rs, operation by operation, over typed instants. What follows the sun takes a mode.
use crate::Answer;
use crate::gregorian::Date;
use crate::mode::Mode;
use crate::trig::{acos, asin, cos, powi, sin, tan};

pub const KATHMANDU_LAT: f64 = 27.7172;
pub const KATHMANDU_LON: f64 = 85.3240;
pub const NPT_OFFSET: f64 = 5.75 / 24.0;
pub const DEG: f64 = std::f64::consts::PI / 180.0;
const SCAN_STEP: f64 = 0.75;
/// The most steps that a search walks.
const STEPS: u16 = 1024;
/// The clock minute that stands for none.
pub const NONE: u16 = 1440;

/// A Julian day of Universal Time.
#[derive(Debug, Clone, Copy, PartialEq, PartialOrd)]
pub struct Ut(pub f64);

/// A Julian day of Terrestrial Time.
#[derive(Debug, Clone, Copy, PartialEq, PartialOrd)]
pub struct Tt(pub f64);

/// 8.
pub fn instant(x: f64) -> Answer<Ut> {
    if (2400000.0..=2510000.0).contains(&x) { Ok(Ut(x)) } else { Err(8) }
}

/// 8.
fn tt_day(x: f64) -> Answer<Tt> {
    if (2399999.0..=2510001.0).contains(&x) { Ok(Tt(x)) } else { Err(8) }
}

/// In the order of a rule's kala field.
#[derive(Debug, Clone, Copy, PartialEq, Eq)]
pub enum Kala {
    Udaya,
    Madhyanna,
    Aparahna,
    Pradosh,
    Nishita,
    Begins,
}

pub const KALAS: [Kala; 6] =
    [Kala::Udaya, Kala::Madhyanna, Kala::Aparahna, Kala::Pradosh, Kala::Nishita, Kala::Begins];

/// The date's Julian day at a day fraction. 3, 8.
pub fn julian_day(date: Date, day_fraction: f64) -> Answer<Ut> {
    instant(date.midnight()? + day_fraction)
}

/// TT less UT in seconds; it answers each f64.
pub fn delta_t(year: f64) -> f64 {
    if year < 1920.0 {
        let t = year - 1900.0;
        -2.79 + 1.494119 * t - 0.0598939 * t * t + 0.0061966 * powi(t, 3) - 0.000197 * powi(t, 4)
    } else if year < 1941.0 {
        let t = year - 1920.0;
        21.20 + 0.84493 * t - 0.076100 * t * t + 0.0020936 * powi(t, 3)
    } else if year < 1961.0 {
        let t = year - 1950.0;
        29.07 + 0.407 * t - t * t / 233.0 + powi(t, 3) / 2547.0
    } else if year < 1986.0 {
        let t = year - 1975.0;
        45.45 + 1.067 * t - t * t / 260.0 - powi(t, 3) / 718.0
    } else if year < 2005.0 {
        let t = year - 2000.0;
        63.86 + 0.3345 * t - 0.060374 * t * t
            + 0.0017275 * powi(t, 3)
            + 0.000651814 * powi(t, 4)
            + 0.00002373599 * powi(t, 5)
    } else if year < 2050.0 {
        let t = year - 2000.0;
        62.92 + 0.32217 * t + 0.005589 * t * t
    } else {
        let t = year - 1820.0;
        -20.0 + 32.0 * powi(t / 100.0, 2) - 0.5628 * (2150.0 - year)
    }
}

/// The only step from a UT day to a TT day. 8.
pub fn tt_from_ut(ut: Ut) -> Answer<Tt> {
    let Ut(jd_ut) = instant(ut.0)?;
    let year = 2000.0 + (jd_ut - 2451545.0) / 365.25;
    tt_day(jd_ut + delta_t(year) / 86400.0)
}

fn julian_centuries(tt: Tt) -> f64 {
    (tt.0 - 2451545.0) / 36525.0
}

/// Can give 360.0.
fn norm360(x: f64) -> f64 {
    x.rem_euclid(360.0)
}

/// The sun's mean longitude, its mean anomaly, and its true longitude before it is brought into one turn.
fn sun_angles(t: f64) -> (f64, f64, f64) {
    let l0 = 280.46646 + 36000.76983 * t + 0.0003032 * t * t;
    let m = 357.52911 + 35999.05029 * t - 0.0001537 * t * t;
    let c = (1.914602 - 0.004817 * t - 0.000014 * t * t) * sin(m * DEG)
        + (0.019993 - 0.000101 * t) * sin(2.0 * m * DEG)
        + 0.000289 * sin(3.0 * m * DEG);
    (l0, m, l0 + c)
}

/// The sun's longitude in degrees that a mode has for tithis. 8.
fn sun_for_tithi(mode: Mode, tt: Tt) -> Answer<f64> {
    let (_, _, longitude) = sun_angles(julian_centuries(tt_day(tt.0)?));
    Ok(norm360(mode.for_tithi(longitude)))
}

/// The sun's true longitude in degrees. 8.
pub fn sun_longitude(tt: Tt) -> Answer<f64> {
    sun_for_tithi(Mode::True, tt)
}

/// D, M, M', F and the coefficient in millionths of a degree: Meeus table 47.A.
#[rustfmt::skip]
const MOON_TERMS: [(i8, i8, i8, i8, i32); 60] = [
    (0, 0, 1, 0, 6288774), (2, 0, -1, 0, 1274027), (2, 0, 0, 0, 658314),
    (0, 0, 2, 0, 213618), (0, 1, 0, 0, -185116), (0, 0, 0, 2, -114332),
    (2, 0, -2, 0, 58793), (2, -1, -1, 0, 57066), (2, 0, 1, 0, 53322),
    (2, -1, 0, 0, 45758), (0, 1, -1, 0, -40923), (1, 0, 0, 0, -34720),
    (0, 1, 1, 0, -30383), (2, 0, 0, -2, 15327), (0, 0, 1, 2, -12528),
    (0, 0, 1, -2, 10980), (4, 0, -1, 0, 10675), (0, 0, 3, 0, 10034),
    (4, 0, -2, 0, 8548), (2, 1, -1, 0, -7888), (2, 1, 0, 0, -6766),
    (1, 0, -1, 0, -5163), (1, 1, 0, 0, 4987), (2, -1, 1, 0, 4036),
    (2, 0, 2, 0, 3994), (4, 0, 0, 0, 3861), (2, 0, -3, 0, 3665),
    (0, 1, -2, 0, -2689), (2, 0, -1, 2, -2602), (2, -1, -2, 0, 2390),
    (1, 0, 1, 0, -2348), (2, -2, 0, 0, 2236), (0, 1, 2, 0, -2120),
    (0, 2, 0, 0, -2069), (2, -2, -1, 0, 2048), (2, 0, 1, -2, -1773),
    (2, 0, 0, 2, -1595), (4, -1, -1, 0, 1215), (0, 0, 2, 2, -1110),
    (3, 0, -1, 0, -892), (2, 1, 1, 0, -810), (4, -1, -2, 0, 759),
    (0, 2, -1, 0, -713), (2, 2, -1, 0, -700), (2, 1, -2, 0, 691),
    (2, -1, 0, -2, 596), (4, 0, 1, 0, 549), (0, 0, 4, 0, 537),
    (4, -1, 0, 0, 520), (1, 0, -2, 0, -487), (2, 1, 0, -2, -399),
    (0, 0, 2, -2, -381), (1, 1, 1, 0, 351), (3, 0, -2, 0, -340),
    (4, 0, -3, 0, 330), (2, -1, 2, 0, 327), (0, 2, 1, 0, -323),
    (1, 1, -1, 0, 299), (2, 0, 3, 0, 294), (2, 0, -1, -2, 0),
];

/// The moon's longitude in degrees. 8.
pub fn moon_longitude(tt: Tt) -> Answer<f64> {
    let t = julian_centuries(tt_day(tt.0)?);
    let lp = 218.3164477 + 481267.88123421 * t - 0.0015786 * t * t + powi(t, 3) / 538841.0
        - powi(t, 4) / 65194000.0;
    let d = 297.8501921 + 445267.1114034 * t - 0.0018819 * t * t + powi(t, 3) / 545868.0
        - powi(t, 4) / 113065000.0;
    let m = 357.5291092 + 35999.0502909 * t - 0.0001536 * t * t + powi(t, 3) / 24490000.0;
    let mp = 134.9633964 + 477198.8675055 * t + 0.0087414 * t * t + powi(t, 3) / 69699.0
        - powi(t, 4) / 14712000.0;
    let f = 93.2720950 + 483202.0175233 * t - 0.0036539 * t * t - powi(t, 3) / 3526000.0
        + powi(t, 4) / 863310000.0;
    let e = 1.0 - 0.002516 * t - 0.0000074 * t * t;

    let mut sum = 0.0;
    for (cd, cm, cmp, cf, coeff) in MOON_TERMS {
        if coeff == 0 {
            continue;
        }
        let arg = (cd as f64 * d + cm as f64 * m + cmp as f64 * mp + cf as f64 * f) * DEG;
        sum += coeff as f64 * powi(e, cm.unsigned_abs() as i32) * sin(arg);
    }
    let a1 = 119.75 + 131.849 * t;
    let a2 = 53.09 + 479264.290 * t;
    sum += 3958.0 * sin(a1 * DEG) + 1962.0 * sin((lp - f) * DEG) + 318.0 * sin(a2 * DEG);
    Ok(norm360(lp + sum / 1_000_000.0))
}

/// 8.
pub fn elongation(mode: Mode, ut: Ut) -> Answer<f64> {
    let tt = tt_from_ut(ut)?;
    Ok(norm360(moon_longitude(tt)? - sun_for_tithi(mode, tt)?))
}

/// 1 plus how many of 12, 24, .., 348 are not above the elongation.
pub fn tithi_of(elongation: f64) -> u16 {
    1 + (1..=29).filter(|k| *k as f64 * 12.0 <= elongation).count() as u16
}

/// 8.
pub fn tithi_at(mode: Mode, ut: Ut) -> Answer<u16> {
    Ok(tithi_of(elongation(mode, ut)?))
}

/// The tithi that follows another.
pub fn next_tithi(tithi: u16) -> u16 {
    if tithi == 30 { 1 } else { tithi + 1 }
}

/// From the target to the instant's elongation: above -180 and at most 180.
fn elongation_offset(mode: Mode, ut: Ut, target: f64) -> Answer<f64> {
    let mut x = elongation(mode, ut)? - target;
    if x <= -180.0 {
        x += 360.0;
    }
    if x > 180.0 {
        x -= 360.0;
    }
    assert!(x > -180.0 && x <= 180.0, "one turn of 360 is enough");
    Ok(x)
}

fn bisect_crossing(mode: Mode, target: f64, mut a: f64, mut b: f64) -> Answer<f64> {
    for _ in 0..30 {
        let mid = (a + b) / 2.0;
        if elongation_offset(mode, Ut(mid), target)? <= 0.0 {
            a = mid;
        } else {
            b = mid;
        }
    }
    Ok((a + b) / 2.0)
}

/// The starts of a tithi and the number of steps walked. 8, 11.
pub fn tithi_starts(mode: Mode, tithi: u16, from: Ut, to: Ut) -> Answer<(Vec<Ut>, u16)> {
    let (Ut(from), Ut(to)) = (instant(from.0)?, instant(to.0)?);
    if !(1..=30).contains(&tithi) {
        return Err(8);
    }
    let target = (tithi as f64 - 1.0) * 12.0;
    let mut found = Vec::new();
    let mut steps = 0;
    let mut lo = from;
    let mut f_lo = elongation_offset(mode, Ut(lo), target)?;
    while lo < to {
        if steps == STEPS {
            return Err(11);
        }
        steps += 1;
        let hi = (lo + SCAN_STEP).min(to);
        let f_hi = elongation_offset(mode, Ut(hi), target)?;
        if f_lo <= 0.0 && f_hi > 0.0 {
            found.push(Ut(bisect_crossing(mode, target, lo, hi)?));
        }
        lo = hi;
        f_lo = f_hi;
    }
    Ok((found, steps))
}

/// The first start of a tithi. 8, 11.
pub fn first_start(mode: Mode, tithi: u16, from: Ut, to: Ut) -> Answer<Option<Ut>> {
    Ok(tithi_starts(mode, tithi, from, to)?.0.first().copied())
}

/// How many starts are written, and the number of steps walked. 8, 11, 9.
pub fn tithi_starts_between(
    mode: Mode,
    tithi: u16,
    from: Ut,
    to: Ut,
    out: &mut [f64],
) -> Answer<(usize, u16)> {
    let (found, steps) = tithi_starts(mode, tithi, from, to)?;
    if out.len() < found.len() {
        return Err(9);
    }
    for (place, start) in out.iter_mut().zip(&found) {
        *place = start.0;
    }
    Ok((found.len(), steps))
}

/// Sunrise and sunset. 3.
pub fn sun_events(mode: Mode, date: Date) -> Answer<Option<(Ut, Ut)>> {
    let jd_noon = julian_day(date, 0.5)?.0 - KATHMANDU_LON / 360.0;
    let t = julian_centuries(tt_from_ut(Ut(jd_noon))?);
    let (l0, m, longitude) = sun_angles(t);
    let lambda = norm360(mode.for_events(longitude, t));
    let e = 0.016708634 - 0.000042037 * t - 0.0000001267 * t * t;
    let eps = 23.439291 - 0.0130042 * t;

    let dec = asin(sin(eps * DEG) * sin(lambda * DEG));
    let y = powi(tan(eps * DEG / 2.0), 2);
    let l0r = l0 * DEG;
    let mr = m * DEG;
    let eot = 4.0 / DEG
        * (y * sin(2.0 * l0r) - 2.0 * e * sin(mr) + 4.0 * e * y * sin(mr) * cos(2.0 * l0r)
            - 0.5 * y * y * sin(4.0 * l0r)
            - 1.25 * e * e * sin(2.0 * mr));
    let cos_ha = cos(90.833 * DEG) / (cos(KATHMANDU_LAT * DEG) * cos(dec))
        - tan(KATHMANDU_LAT * DEG) * tan(dec);
    if !(-1.0..=1.0).contains(&cos_ha) {
        return Ok(None);
    }
    let ha = acos(cos_ha) / DEG;

    let solar_noon = (720.0 - 4.0 * KATHMANDU_LON - eot) / 1440.0;
    let midnight = julian_day(date, 0.0)?.0;
    let rise = instant(midnight + solar_noon - ha * 4.0 / 1440.0);
    let set = instant(midnight + solar_noon + ha * 4.0 / 1440.0);
    Ok(rise.ok().zip(set.ok()))
}

/// 3.
pub fn sunrise(mode: Mode, date: Date) -> Answer<Option<Ut>> {
    Ok(sun_events(mode, date)?.map(|(rise, _)| rise))
}

/// 3.
pub fn sunset(mode: Mode, date: Date) -> Answer<Option<Ut>> {
    Ok(sun_events(mode, date)?.map(|(_, set)| set))
}

/// 3, for nishita also on the last date.
pub fn kala_instant(mode: Mode, date: Date, kala: Kala) -> Answer<Option<Ut>> {
    if kala == Kala::Nishita {
        let window = nishita_window(mode, date)?;
        return Ok(window.map(|(from, to)| Ut((from.0 + to.0) / 2.0)));
    }
    let instant = |(Ut(rise), Ut(set))| match kala {
        Kala::Madhyanna => rise + (set - rise) * 0.4,
        Kala::Aparahna => rise + (set - rise) * 0.6,
        Kala::Pradosh => set + 45.0 / 1440.0,
        _ => rise,
    };
    Ok(sun_events(mode, date)?.map(instant).map(Ut))
}

/// 3, also on the last date.
pub fn nishita_window(mode: Mode, date: Date) -> Answer<Option<(Ut, Ut)>> {
    let next = date.next()?;
    let events = sun_events(mode, date)?.zip(sun_events(mode, next)?);
    Ok(events.map(|((_, Ut(set)), (Ut(next_rise), _))| {
        let night = next_rise - set;
        (Ut(set + night * 7.0 / 15.0), Ut(set + night * 8.0 / 15.0))
    }))
}

/// The local day and its fraction: floor of instant + 5.75/24 + 0.5, and the rest.
fn local(ut: Ut) -> (f64, f64) {
    let local = ut.0 + NPT_OFFSET + 0.5;
    (local.floor(), local - local.floor())
}

/// 8, 3.
pub fn npt_date(ut: Ut) -> Answer<Date> {
    let (day, _) = local(instant(ut.0)?);
    Date::from_day_number(day as i64)
}

/// The clock minute of a local day's fraction, by the Rust's expression on each f64.
pub fn minutes_of(fraction: f64) -> u16 {
    let hours = fraction * 24.0;
    ((hours * 60.0).round() as u32 % 1440) as u16
}

/// 8.
pub fn npt_clock(ut: Ut) -> Answer<u16> {
    let (_, fraction) = local(instant(ut.0)?);
    Ok(minutes_of(fraction))
}

/// When the running tithi ends. 8, also where 2.5 days on passes the range.
pub fn tithi_end(mode: Mode, ut: Ut) -> Answer<Option<Ut>> {
    let Ut(jd) = instant(ut.0)?;
    let to = instant(jd + 2.5)?;
    first_start(mode, next_tithi(tithi_at(mode, ut)?), ut, to)
}

/// What a day's cell shows: the sunrise tithi and three clock minutes.
#[derive(Debug, Clone, Copy, PartialEq, Eq)]
pub struct Reading {
    pub tithi: u16,
    pub end: u16,
    pub sunrise: u16,
    pub sunset: u16,
}

/// 3.
pub fn reading(mode: Mode, date: Date) -> Answer<Reading> {
    let events = sun_events(mode, date)?;
    let reference = match events {
        Some((rise, _)) => rise,
        None => julian_day(date, 0.25 - NPT_OFFSET)?,
    };
    let clock = |at: Option<Ut>| at.map_or(Ok(NONE), npt_clock);
    Ok(Reading {
        tithi: tithi_at(mode, reference)?,
        end: clock(tithi_end(mode, reference)?.filter(|end| npt_date(*end) == Ok(date)))?,
        sunrise: clock(events.map(|(rise, _)| rise))?,
        sunset: clock(events.map(|(_, set)| set))?,
    })
}
