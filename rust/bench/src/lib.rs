//! What the benchmarks share: the clock, made-up vaults, the peers, and the rows of the scan, of compaction, of a join by its places and
//! by its clients, and of queries.

pub mod clients;
pub mod clock;
pub mod compaction;
pub mod generate;
pub mod peers;
pub mod places;
pub mod queries;
pub mod scan;
pub mod text;
