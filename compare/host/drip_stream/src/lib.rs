//! A stand-in for drip_stream. Stream calls are left out of the port: every one fails.
use soroban_sdk::{Address, Env};

pub struct DripStreamClient;

impl DripStreamClient {
    pub fn new(_: &Env, _: &Address) -> DripStreamClient {
        DripStreamClient
    }

    pub fn try_recipient(&self) -> Result<Address, ()> {
        Err(())
    }

    pub fn try_withdrawable(&self) -> Result<Result<i128, ()>, ()> {
        Err(())
    }

    pub fn try_withdraw(&self, _: &i128) -> Result<Result<(), ()>, ()> {
        Err(())
    }
}
