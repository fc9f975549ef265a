//! A second implementation of document 01, a logical disk on a tote card, written apart from the proved one so that
//! the two can be compared on long random runs.
//!
//! It is plain: every call walks the log again, and every state is a handful of fixed tables. Reading order:
//! [`entry`] (entries and their bytes), [`free`] (free numbers in their order), [`state`] (what entries act on), [`log`] (how
//! they stand on the card), [`record`] (queue, journals, question 3), [`disk`] (the calls), then the programs' parts, [`lister`], [`page`] and
//! [`shell`].
//! [`generator`] writes random scripts for both shells; of which two units it may end either first says [`either_order`].

pub mod disk;
pub mod either_order;
pub mod entry;
pub mod free;
pub mod generator;
pub mod limits;
pub mod lister;
pub mod log;
pub mod page;
pub mod random;
pub mod record;
pub mod shell;
pub mod state;
