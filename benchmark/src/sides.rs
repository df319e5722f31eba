//! The two versions, under one table of functions.

use crate::fast;
use cepnhoy::{AllocationAnswer, Answer, Reading, Registration, Settings};

type SettleList = fn(&mut [u64], &mut [i64], &[u64], &mut [u64], &mut [i64]) -> AllocationAnswer;

type MakeCalls = fn(Settings, &mut [u64], &mut [i64], &[u64], &mut [u64]) -> Answer;

type Totals = fn(Settings, &[u64], u64, u64, &mut [u64]) -> Answer;

pub struct Side {
    pub register: fn(Settings, &mut [u64], &mut [i64], u64, Registration) -> Answer,
    pub record_reading: fn(Settings, &mut [u64], &mut [i64], u64, Reading) -> Answer,
    pub set_shape: fn(Settings, &[u64], &mut [i64], u64, u64) -> Answer,
    pub allocate: fn(Settings, &[u64], &[i64], &mut [i64]) -> AllocationAnswer,
    pub totals: Totals,
    pub make_calls: MakeCalls,
    pub settle_list: SettleList,
}

pub static LIBRARY: Side = Side {
    register: cepnhoy::register,
    record_reading: cepnhoy::record_reading,
    set_shape: cepnhoy::set_shape,
    allocate: cepnhoy::allocate,
    totals: cepnhoy::totals,
    make_calls: cepnhoy::make_calls,
    settle_list: cepnhoy::settle_list,
};

pub static RUST: Side = Side {
    register: fast::register,
    record_reading: fast::record_reading,
    set_shape: fast::set_shape,
    allocate: fast::allocate,
    totals: fast::totals,
    make_calls: fast::make_calls,
    settle_list: fast::settle_list,
};
