//! What the published functions name of the rest of their repository, as small as they need it.
use core::fmt;
use reading::{daycount, elementary as reading01, Answer};
use std::string::String;
use std::vec::Vec;

pub fn or_unwind(answer: Answer) -> f64 {
    match answer {
        Ok(x) => x,
        Err(refusal) => panic!("{}", refusal.number),
    }
}

/// Document 01's functions, where the text calls f64's.
pub trait Elementary {
    fn exp(self) -> f64;
    fn exp_m1(self) -> f64;
    fn ln(self) -> f64;
    fn sqrt(self) -> f64;
    fn powf(self, p: f64) -> f64;
    fn mul_add(self, a: f64, b: f64) -> f64;
    fn round(self) -> f64;
    fn ceil(self) -> f64;
}

/// Set to measure the text with the platform's functions instead of document 01's.
pub static PLATFORM: core::sync::atomic::AtomicBool = core::sync::atomic::AtomicBool::new(false);

/// The C library's functions, which are the platform's.
mod platform {
    extern "C" {
        pub fn exp(x: f64) -> f64;
        pub fn expm1(x: f64) -> f64;
        pub fn log(x: f64) -> f64;
        pub fn sqrt(x: f64) -> f64;
        pub fn pow(x: f64, y: f64) -> f64;
        pub fn fma(x: f64, y: f64, z: f64) -> f64;
        pub fn round(x: f64) -> f64;
        pub fn ceil(x: f64) -> f64;
    }
}

macro_rules! elementary {
    ($($name:ident($($argument:ident),*) = $reading:ident, $platform:ident;)+) => {
        impl Elementary for f64 {$(
            fn $name(self, $($argument: f64),*) -> f64 {
                if PLATFORM.load(core::sync::atomic::Ordering::Relaxed) {
                    unsafe { platform::$platform(self, $($argument),*) }
                } else {
                    or_unwind(reading01::$reading(self, $($argument,)* 0))
                }
            }
        )+}
    };
}

elementary! {
    exp() = exp_at, exp;
    exp_m1() = exp_m1_at, expm1;
    ln() = ln_at, log;
    sqrt() = sqrt_at, sqrt;
    powf(p) = powf_at, pow;
    mul_add(a, b) = mul_add_at, fma;
    round() = round_at, round;
    ceil() = ceil_at, ceil;
}

pub enum QSError {
    InvalidValueErr(String),
    NotFoundErr(String),
    UnexpectedErr(String),
    ValueNotSetErr(String),
    SolverErr(String),
}

pub type Result<T> = core::result::Result<T, QSError>;
pub type DualFwd = f64;

/// A day number.
#[derive(Clone, Copy, PartialEq, Eq, PartialOrd, Ord)]
pub struct Date(pub u32);

/// Of a day-count code. The text asks for times from settlement only.
#[derive(Clone, Copy)]
pub struct DayCounter(pub u32);

impl DayCounter {
    pub fn year_fraction(&self, from: Date, to: Date) -> f64 {
        daycount::year_fraction(from.0, self.0, to.0)
    }
}

#[derive(Clone, Copy)]
pub struct TimeGridConfiguration {
    pub code: u32,
    pub steps_per_year: usize,
    pub max_steps: usize,
}

impl TimeGridConfiguration {
    pub fn day_counter(&self) -> DayCounter {
        DayCounter(self.code)
    }
    pub fn steps_per_year(&self) -> usize {
        self.steps_per_year
    }
    pub fn max_steps(&self) -> usize {
        self.max_steps
    }
}

#[derive(Clone, Copy)]
pub struct Redemption {
    pub day: u32,
    pub amount: f64,
}

impl Redemption {
    pub fn payment_date(&self) -> Date {
        Date(self.day)
    }
    pub fn amount(&self) -> Result<f64> {
        Ok(self.amount)
    }
}

#[derive(Clone, Copy)]
pub enum CashflowType {
    Coupon,
    Redemption(Redemption),
}

pub struct Leg<T> {
    pub flows: Vec<CashflowType>,
    pub scalar: core::marker::PhantomData<T>,
}

impl<T> Leg<T> {
    pub fn cashflows(&self) -> &[CashflowType] {
        &self.flows
    }
}

#[derive(Clone, Copy)]
pub struct CallScheduleEntry {
    pub start: u32,
    pub end: u32,
    pub strike: f64,
}

impl CallScheduleEntry {
    pub fn date(&self) -> Date {
        Date(self.start)
    }
    pub fn end_date(&self) -> Date {
        Date(self.end)
    }
    pub fn strike(&self) -> f64 {
        self.strike
    }
}

pub trait InterestRatesTermStructure<T> {
    fn discount_factor(&self, date: Date) -> Result<T>;
}

#[derive(Clone, Copy)]
pub enum Compounding {
    Simple,
    Compounded,
    Continuous,
    SimpleThenCompounded,
    CompoundedThenSimple,
}

#[derive(Clone, Copy)]
pub enum Frequency {
    Annual = 1,
    Semiannual = 2,
    EveryFourthMonth = 3,
    Quarterly = 4,
    Bimonthly = 6,
    Monthly = 12,
    EveryFourthWeek = 13,
    Biweekly = 26,
    Weekly = 52,
    Daily = 365,
    OtherFrequency = 999,
}

#[derive(Clone, Copy)]
pub struct RateDefinition {
    pub code: u32,
    pub compounding: Compounding,
    pub frequency: Frequency,
}

impl RateDefinition {
    pub fn day_counter(&self) -> DayCounter {
        DayCounter(self.code)
    }
    pub fn compounding(&self) -> Compounding {
        self.compounding
    }
    pub fn frequency(&self) -> Frequency {
        self.frequency
    }
}

/// An f64 whose every result is tested; the first that isn't finite unwinds.
#[derive(Clone, Copy, Debug, Default, PartialEq, PartialOrd)]
pub struct Tested(pub f64);

impl Tested {
    pub fn of(x: f64) -> Self {
        Tested(or_unwind(reading01::tested(x, 0)))
    }
}

impl PartialEq<f64> for Tested {
    fn eq(&self, other: &f64) -> bool {
        self.0 == *other
    }
}

impl PartialOrd<f64> for Tested {
    fn partial_cmp(&self, other: &f64) -> Option<core::cmp::Ordering> {
        self.0.partial_cmp(other)
    }
}

impl From<f64> for Tested {
    fn from(x: f64) -> Self {
        Tested(x)
    }
}

impl fmt::Display for Tested {
    fn fmt(&self, f: &mut fmt::Formatter<'_>) -> fmt::Result {
        self.0.fmt(f)
    }
}
