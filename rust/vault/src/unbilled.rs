//! Joins and searches for callers that bill nobody: all keywords are one client's, whose tally begins at zero and is dropped. So neither 22 nor 23
//! comes, and every answer, count and list is what any good key gives.

use crate::{Error, Failure, Occurrence, SearchError, Searched, Tally, ONE_CLIENT};

/// [`join_into`](crate::join_into) without a bill.
pub fn join_into(index: &[u8], recipes: &[u8], out: &mut [u8]) -> Result<usize, Error> {
    crate::join_into(index, recipes, &ONE_CLIENT, &mut Tally::default(), out)
}

/// [`join_bytes`](crate::join_bytes) without a bill.
pub fn join_bytes(index: &[u8], recipes: &[u8]) -> Result<Vec<u8>, Failure> {
    crate::join_bytes(index, recipes, &ONE_CLIENT, &mut Tally::default())
}

/// [`join`](crate::join) without a bill.
pub fn join(index: &[u8], recipes: &[u8]) -> Result<Vec<Occurrence>, Failure> {
    crate::join(index, recipes, &ONE_CLIENT, &mut Tally::default())
}

/// [`search_into`](crate::search_into) without a bill.
pub fn search_into(list: &[u8], store: &[u8], recipes: &[u8], index: &mut [u8], out: &mut [u8]) -> Result<Searched, SearchError> {
    crate::search_into(list, store, recipes, &ONE_CLIENT, &mut Tally::default(), (index, out))
}

/// [`search`](crate::search) without a bill.
pub fn search(list: &[u8], store: &[u8], recipes: &[u8]) -> Result<Vec<Occurrence>, Failure> {
    crate::search(list, store, recipes, &ONE_CLIENT, &mut Tally::default())
}
