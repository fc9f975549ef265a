//! The "Runs with known outcome" of document 01, in their order; those that it marks P are named so. Then what document 02
//! says of blocks that nobody wrote (E4), of printed pages (E1), of windows (E7), of races (E10), of lists taken in units
//! (E6) and of numbers that rest (E11).

use second::disk::{Ending, Flushed, Lent, MountRefusal, Refusal};
use second::entry::{Cause, Change};
use second::free::Order;
use second::limits::{BLOCK_BYTES, JOURNAL_BYTES, QUEUE_BYTES, SEGMENT_BYTES, SUMMARY_AT};
use second::lister;
use second::page;
use second::record::{NumberSet, Record};

/// What a caller lends.
#[derive(Clone)]
struct Owner {
    card: Vec<u8>,
    queue_data: Vec<u8>,
    journal_data: Vec<u8>,
    record: Record,
}

impl Owner {
    /// With a formatted card.
    fn formatted(segments: usize) -> Owner {
        let mut owner = Owner {
            card: vec![165; segments * SEGMENT_BYTES],
            queue_data: vec![165; QUEUE_BYTES],
            journal_data: vec![165; JOURNAL_BYTES],
            record: Record::UNSOUND,
        };
        assert_eq!(owner.lend().format(), Ok(()));
        owner
    }

    fn lend(&mut self) -> Lent<'_> {
        Lent {
            card: &mut self.card,
            queue_data: &mut self.queue_data,
            journal_data: &mut self.journal_data,
            record: &mut self.record,
        }
    }

    /// "NewList gives 1; NewBlock first on 1 gives 1; Write to 1 of a 7 and 255 zeros."
    fn begun(segments: usize) -> Owner {
        let mut owner = Owner::formatted(segments);
        assert_eq!(owner.lend().new_list(0), Ok(1));
        assert_eq!(owner.lend().new_block(0, 1, 0), Ok(1));
        assert_eq!(owner.lend().write(0, 1, &seven(), 0), Ok(()));
        owner
    }

    /// The same, on a card that is flushed.
    fn begun_and_flushed() -> Owner {
        let mut owner = Owner::begun(1);
        assert_eq!(owner.flush(65_535), flushed(267, Ending::Drained));
        owner
    }

    /// Then unit 1: NewBlock after 1, Write to it.
    fn with_unit() -> Owner {
        let mut owner = Owner::begun_and_flushed();
        assert_eq!(owner.lend().begin(1, 1), Ok(()));
        assert_eq!(owner.lend().new_block(1, 1, 1), Ok(2));
        assert_eq!(owner.lend().write(1, 2, &[9; BLOCK_BYTES], 0), Ok(()));
        owner
    }

    fn flush(&mut self, allowance: u64) -> Result<Flushed, Refusal> {
        self.lend().flush(allowance)
    }

    fn summary(&self, segment: usize) -> &[u8] {
        &self.card[segment * SEGMENT_BYTES + SUMMARY_AT..(segment + 1) * SEGMENT_BYTES]
    }

    fn remount(&mut self) {
        self.record = Record::UNSOUND;
        assert_eq!(self.lend().mount(), Ok(()));
    }

    /// A read without its race.
    fn read(&mut self, view: u64, block: u64) -> Result<[u8; BLOCK_BYTES], Refusal> {
        self.read_with_race(view, block).map(|(data, _)| data)
    }

    /// The race that a read returns.
    fn race(&mut self, view: u64, block: u64) -> Result<u8, Refusal> {
        self.read_with_race(view, block).map(|(_, race)| race)
    }

    /// A read; refused, it leaves the destination as it was.
    fn read_with_race(&mut self, view: u64, block: u64) -> Result<([u8; BLOCK_BYTES], u8), Refusal> {
        const BEFORE: [u8; BLOCK_BYTES] = [165; BLOCK_BYTES];
        let mut data = BEFORE;
        let answer = self.lend().read(view, block, &mut data);
        assert!(answer.is_ok() || data == BEFORE);
        answer.map(|race| (data, race))
    }

    /// The answers of reads of `block` in these views: 0, or the refusal's number.
    fn reads<const VIEWS: usize>(&mut self, block: u64, views: [u64; VIEWS]) -> [u8; VIEWS] {
        views.map(|view| self.read(view, block).map_or_else(Refusal::number, |_| 0))
    }

    /// List 1 with block 1 put and nobody's write, flushed.
    fn unwritten() -> Owner {
        let mut owner = Owner::formatted(1);
        assert_eq!(owner.lend().new_list(0), Ok(1));
        assert_eq!(owner.lend().new_block(0, 1, 0), Ok(1));
        assert_eq!(owner.flush(65_535), flushed(7, Ending::Drained));
        owner
    }
}

fn seven() -> [u8; BLOCK_BYTES] {
    let mut data = [0; BLOCK_BYTES];
    data[0] = 7;
    data
}

fn flushed(stores: u32, ending: Ending) -> Result<Flushed, Refusal> {
    Ok(Flushed { stores, ending })
}

#[test]
fn p_flush_takes_267_stores() {
    let owner = Owner::begun_and_flushed();
    assert_eq!(owner.summary(0)[..9], [3, 2, 1, 3, 1, 1, 9, 1, 0]);
    assert_eq!(owner.card[..BLOCK_BYTES], seven());
}

/// "Document 01's 266-store case now shows block 1 unwritten."
#[test]
fn p_after_266_stores_block_1_is_unwritten() {
    let mut owner = Owner::begun(1);
    assert_eq!(owner.flush(266), flushed(266, Ending::Spent));
    assert_eq!(owner.reads(1, [0, 5]), [0, 15]);
    owner.remount();
    assert_eq!(owner.reads(1, [0, 5]), [15, 15]);
    assert_eq!(owner.lend().next_block(0, 1, 0), Ok(1));
    assert_eq!(
        lister::lines(&owner.card),
        "segments 1 used 1 entries 2\nlist 1: 1\nblock 1: unwritten\n"
    );
}

#[test]
fn p_after_267_stores_block_1_holds_the_7() {
    let mut owner = Owner::begun(1);
    assert_eq!(owner.flush(267), flushed(267, Ending::Drained));
    owner.remount();
    assert_eq!(owner.read(0, 1), Ok(seven()));
}

#[test]
fn p_entries_of_a_unit() {
    let mut owner = Owner::with_unit();
    assert_eq!(owner.lend().end(1), Ok(()));
    assert_eq!(owner.flush(65_535), flushed(268, Ending::Drained));
    assert_eq!(owner.summary(0)[0], 6);
    assert_eq!(owner.summary(0)[9..18], [135, 2, 1, 1, 137, 2, 1, 16, 2]);
}

#[test]
fn p_after_267_stores_of_the_unit_block_1_only() {
    let mut owner = Owner::with_unit();
    assert_eq!(owner.lend().end(1), Ok(()));
    assert_eq!(owner.flush(267), flushed(267, Ending::Spent));
    owner.remount();
    assert_eq!(owner.lend().next_block(0, 1, 0), Ok(1));
    assert_eq!(owner.lend().next_block(0, 1, 1), Ok(0));
    assert_eq!(owner.read(0, 1), Ok(seven()));
    assert_eq!(owner.read(0, 2), Err(Refusal::Block));
}

#[test]
fn p_after_268_stores_of_the_unit_both() {
    let mut owner = Owner::with_unit();
    assert_eq!(owner.lend().end(1), Ok(()));
    assert_eq!(owner.flush(268), flushed(268, Ending::Drained));
    owner.remount();
    assert_eq!(owner.lend().next_block(0, 1, 1), Ok(2));
    assert_eq!(owner.lend().next_block(0, 1, 2), Ok(0));
    assert_eq!(owner.read(0, 2), Ok([9; BLOCK_BYTES]));
}

#[test]
fn p_before_end_view_0_has_no_block_after_1() {
    let mut owner = Owner::with_unit();
    assert_eq!(owner.lend().next_block(0, 1, 1), Ok(0));
}

#[test]
fn p_before_end_view_1_has_2() {
    let mut owner = Owner::with_unit();
    assert_eq!(owner.lend().next_block(1, 1, 1), Ok(2));
}

#[test]
fn p_unit_that_wrote_a_deleted_block_is_refused_12() {
    let mut owner = Owner::begun_and_flushed();
    assert_eq!(owner.lend().begin(2, 1), Ok(()));
    assert_eq!(owner.lend().write(2, 1, &[5; BLOCK_BYTES], 0), Ok(()));
    assert_eq!(owner.lend().delete_block(0, 1), Ok(()));
    assert_eq!(owner.lend().end(2), Err(Refusal::Conflict));
    assert_eq!(owner.lend().conflicts(1), Ok(1));
    assert_eq!(owner.lend().end(2), Err(Refusal::Stream));
}

#[test]
fn p_empty_unit_queues_16_0() {
    let mut owner = Owner::formatted(1);
    assert_eq!(owner.lend().begin(1, 1), Ok(()));
    assert_eq!(owner.lend().end(1), Ok(()));
    assert_eq!(owner.flush(65_535), flushed(3, Ending::Drained));
    assert_eq!(owner.summary(0)[..3], [1, 16, 0]);
}

#[test]
fn two_byte_entries_fill_510_bytes_and_a_256th_opens_the_next_segment() {
    let mut owner = Owner::formatted(2);
    for _ in 0..255 {
        assert_eq!(owner.lend().begin(1, 1), Ok(()));
        assert_eq!(owner.lend().end(1), Ok(()));
        assert_eq!(owner.flush(65_535), flushed(3, Ending::Drained));
    }
    assert_eq!((owner.summary(0)[0], owner.summary(1)[0]), (255, 0));
    owner.remount();
    assert_eq!(owner.lend().new_list(0), Ok(1));
    assert_eq!(owner.flush(65_535), flushed(3, Ending::Drained));
    assert_eq!(owner.summary(0)[0], 255);
    assert_eq!(owner.summary(1)[..3], [1, 2, 1]);
    owner.remount();
    assert_eq!(owner.lend().next_block(5, 1, 0), Ok(0));
}

#[test]
fn a_15th_write_opens_the_next_segment() {
    let mut owner = Owner::begun(2);
    for _ in 0..14 {
        assert_eq!(owner.lend().write(0, 1, &[3; BLOCK_BYTES], 0), Ok(()));
    }
    assert_eq!(owner.flush(65_535), flushed(7 + 15 * 260, Ending::Drained));
    assert_eq!((owner.summary(0)[0], owner.summary(1)[0]), (16, 1));
    assert_eq!(owner.summary(0)[45..48], [9, 1, 13]);
    assert_eq!(owner.summary(1)[1..4], [9, 1, 0]);
    assert_eq!(owner.card[SEGMENT_BYTES..][..BLOCK_BYTES], [3; BLOCK_BYTES]);
}

#[test]
fn a_15th_write_on_one_segment_ends_full() {
    let mut owner = Owner::begun(1);
    for _ in 0..14 {
        assert_eq!(owner.lend().write(0, 1, &[3; BLOCK_BYTES], 0), Ok(()));
    }
    assert_eq!(owner.flush(65_535), flushed(7 + 14 * 260, Ending::Full));
    assert_eq!(owner.flush(0), flushed(0, Ending::Full));
    // The head stays; what is behind it waits too.
    assert_eq!(owner.lend().new_list(0), Ok(2));
    assert_eq!(owner.flush(65_535), flushed(0, Ending::Full));
}

#[test]
fn journal_takes_15_entries() {
    let mut owner = Owner::begun(1);
    assert_eq!(owner.lend().begin(4, 1), Ok(()));
    for _ in 0..15 {
        assert_eq!(owner.lend().write(4, 1, &[1; BLOCK_BYTES], 0), Ok(()));
    }
    assert_eq!(
        owner.lend().write(4, 1, &[1; BLOCK_BYTES], 0),
        Err(Refusal::JournalFull)
    );
}

#[test]
fn queue_takes_32_entries() {
    let mut owner = Owner::begun(1);
    for _ in 3..32 {
        assert_eq!(owner.lend().write(0, 1, &[1; BLOCK_BYTES], 0), Ok(()));
    }
    assert_eq!(owner.lend().write(0, 1, &[1; BLOCK_BYTES], 0), Err(Refusal::QueueFull));
    assert_eq!(owner.lend().new_list(0), Err(Refusal::QueueFull));
}

#[test]
fn wrong_lengths_are_refused_1() {
    for length in [0, 1, 4_095, 4_097, 65 * 4_096] {
        let mut owner = Owner::formatted(1);
        owner.card = vec![0; length];
        assert_eq!(owner.lend().format(), Err(Refusal::Lengths));
        assert_eq!(owner.lend().mount(), Err(MountRefusal::Lengths));
        assert_eq!(owner.lend().new_list(0), Err(Refusal::Lengths));
        assert_eq!(owner.lend().flush(0), Err(Refusal::Lengths));
        assert_eq!(owner.lend().conflicts(1), Err(Refusal::Lengths));
    }
    for segments in 1..=64 {
        Owner::formatted(segments).remount();
    }
}

#[test]
fn lister_prints_the_267_store_card() {
    let owner = Owner::begun_and_flushed();
    assert_eq!(
        lister::lines(&owner.card),
        "segments 1 used 1 entries 3\nlist 1: 1\nblock 1: 7\n"
    );
}

#[test]
fn lister_refuses_lengths_and_faults() {
    assert_eq!(lister::lines(&[]), "refused 1\n");
    assert_eq!(lister::lines(&[0; 4_095]), "refused 1\n");
    assert_eq!(lister::lines(&vec![0; 17 * SEGMENT_BYTES]), "refused 1\n");
    assert_eq!(
        lister::lines(&vec![0; 16 * SEGMENT_BYTES]),
        "segments 16 used 0 entries 0\n"
    );
    assert_eq!(lister::lines(&vec![165; SEGMENT_BYTES]), "refused 2\n");
}

/// Faults and their places: question 2.
#[test]
fn faults_have_their_place() {
    /// The entry at fault and what is wrong with it; None if the log is acceptable.
    type Expected = Option<(u8, Cause)>;
    let faults: [(&[u8], Expected); 16] = [
        (&[1, 144, 0], Some((0, Cause::Map))),
        (&[1, 2, 0], Some((0, Cause::Range))),
        (&[1, 2, 17], Some((0, Cause::Range))),
        (&[2, 2, 1, 2, 1], Some((1, Cause::Inapplicable))),
        (&[3, 2, 1, 3, 1, 1, 7, 2, 1, 0], Some((2, Cause::Range))),
        (&[3, 2, 1, 3, 1, 1, 9, 1, 1], Some((2, Cause::Slot))),
        (&[3, 2, 1, 3, 1, 1, 9, 1, 14], Some((2, Cause::Range))),
        // A dead member is judged, but for its applying.
        (&[1, 137, 1, 0], None),
        (&[1, 137, 1, 1], Some((0, Cause::Slot))),
        (&[1, 161, 65], Some((0, Cause::Range))),
        // Commits and their runs.
        (&[1, 16, 1], Some((0, Cause::Run))),
        (&[3, 161, 1, 16, 0, 16, 1], Some((2, Cause::Run))),
        (&[2, 161, 1, 16, 1], Some((1, Cause::Inapplicable))),
        (&[3, 162, 2, 2, 1, 16, 1], Some((2, Cause::Run))),
        // The earlier member of the run is dead.
        (&[4, 2, 1, 161, 9, 131, 4, 1, 16, 1], None),
        (&[1, 16, 16], Some((0, Cause::Range))),
    ];
    for (summary, fault) in faults {
        let mut owner = Owner::formatted(1);
        owner.card[SUMMARY_AT..][..summary.len()].copy_from_slice(summary);
        let answer = owner.lend().mount().map_err(|refusal| match refusal {
            MountRefusal::Lengths => panic!("the lengths are right"),
            MountRefusal::Log(fault) => (fault.segment, fault.entry, fault.cause),
        });
        let expected = match fault {
            None => Ok(()),
            Some((entry, cause)) => Err((0, entry, cause)),
        };
        assert_eq!(answer, expected, "{summary:?}");
    }
}

#[test]
fn a_used_segment_after_an_empty_one_is_its_entry_0() {
    let mut owner = Owner::formatted(4);
    owner.card[2 * SEGMENT_BYTES + SUMMARY_AT] = 1;
    owner.card[3 * SEGMENT_BYTES + SUMMARY_AT] = 1;
    match owner.lend().mount() {
        Err(MountRefusal::Log(fault)) => {
            assert_eq!((fault.segment, fault.entry, fault.cause), (2, 0, Cause::AfterEmpty));
        }
        answer => panic!("{answer:?}"),
    }
}

/// "With allowance m+n it leaves what m, then n leaves", and the reported stores add up.
#[test]
fn a_flush_goes_on_in_mid_entry() {
    let mut whole = Owner::with_unit();
    assert_eq!(whole.lend().end(1), Ok(()));
    let mut parts = whole.clone();
    assert_eq!(whole.flush(65_535), flushed(268, Ending::Drained));
    for _ in 0..267 {
        assert_eq!(parts.flush(1), flushed(1, Ending::Spent));
        assert_eq!(parts.flush(0), flushed(0, Ending::Spent));
    }
    assert_eq!(parts.flush(1), flushed(1, Ending::Drained));
    assert!(whole.card == parts.card);
    assert_eq!(whole.record, parts.record);
}

/// "Adding dead members after a remount to the next unit's": here a commit takes only its own.
#[test]
fn dead_members_stay_dead() {
    let mut owner = Owner::with_unit();
    assert_eq!(owner.lend().end(1), Ok(()));
    assert_eq!(owner.flush(5), flushed(5, Ending::Spent));
    owner.remount();
    assert_eq!(owner.lend().begin(1, 1), Ok(()));
    assert_eq!(owner.lend().new_block(1, 1, 0), Ok(2));
    assert_eq!(owner.lend().end(1), Ok(()));
    assert_eq!(owner.flush(65_535), flushed(7, Ending::Drained));
    owner.remount();
    assert_eq!(owner.lend().next_block(5, 1, 0), Ok(2));
    assert_eq!(owner.lend().next_block(5, 1, 2), Ok(1));
}

// ---- Document 02, E4 ------------------------------------------------------------------------------------------------

/// "A write of 256 zeros counts as written."
#[test]
fn a_write_of_zeros_counts() {
    let mut owner = Owner::unwritten();
    assert_eq!(owner.reads(1, [0, 5]), [15, 15]);
    assert_eq!(owner.lend().write(0, 1, &[0; BLOCK_BYTES], 0), Ok(()));
    assert_eq!(owner.read(0, 1), Ok([0; BLOCK_BYTES]));
    assert_eq!(owner.read(5, 1), Err(Refusal::Unwritten));
    assert_eq!(owner.flush(65_535), flushed(260, Ending::Drained));
    owner.remount();
    assert_eq!(owner.read(5, 1), Ok([0; BLOCK_BYTES]));
    assert_eq!(
        lister::lines(&owner.card),
        "segments 1 used 1 entries 3\nlist 1: 1\nblock 1: 0\n"
    );
}

/// "Not written since its present put": an earlier write is not since.
#[test]
fn a_block_deleted_and_put_again_is_unwritten_again() {
    let mut owner = Owner::begun_and_flushed();
    assert_eq!(owner.lend().delete_block(0, 1), Ok(()));
    assert_eq!(owner.read(0, 1), Err(Refusal::Block));
    // The numbers go round once: 2 to 64 on list 1, then 1 again.
    for block in 2..=64 {
        assert_eq!(owner.lend().new_block(0, 1, 0), Ok(block));
        assert!(owner.flush(65_535).is_ok());
    }
    assert_eq!(owner.lend().new_block(0, 1, 0), Ok(1));
    assert_eq!(owner.reads(1, [0, 5]), [15, 8]);
    assert!(owner.flush(65_535).is_ok());
    assert_eq!(owner.reads(1, [0, 5]), [15, 15]);
    owner.remount();
    assert_eq!(owner.reads(1, [0, 5]), [15, 15]);
    assert_eq!(owner.lend().write(0, 1, &seven(), 0), Ok(()));
    assert_eq!(owner.read(0, 1), Ok(seven()));
}

/// The same by deleting the list, and mounting before the put: 2 to 64 come before 1.
#[test]
fn a_block_of_a_deleted_list_is_unwritten_when_put_again() {
    let mut owner = Owner::begun_and_flushed();
    assert_eq!(owner.lend().delete_list(0, 1), Ok(()));
    assert_eq!(owner.lend().new_list(0), Ok(2));
    assert_eq!(owner.flush(65_535), flushed(6, Ending::Drained));
    owner.remount();
    assert_eq!(owner.put(2, 64), (2..=64).chain([1]).collect::<Vec<u8>>());
    assert_eq!(owner.read(0, 1), Err(Refusal::Unwritten));
    assert!(owner.flush(65_535).is_ok());
    assert!(lister::lines(&owner.card).contains(" 63 64 1\nblock 1: unwritten\n"));
}

/// "By that view's state": a unit's write is in its view alone until its End.
#[test]
fn a_units_write_is_seen_in_its_view_until_end() {
    let mut owner = Owner::unwritten();
    assert_eq!(owner.lend().begin(1, 1), Ok(()));
    assert_eq!(owner.lend().begin(2, 1), Ok(()));
    assert_eq!(owner.lend().write(1, 1, &seven(), 0), Ok(()));
    assert_eq!(owner.read(1, 1), Ok(seven()));
    assert_eq!(owner.reads(1, [0, 1, 2, 5]), [15, 0, 15, 15]);
    assert_eq!(owner.lend().end(1), Ok(()));
    assert_eq!(owner.reads(1, [0, 1, 2, 5]), [0, 4, 0, 15]);
    assert_eq!(owner.read(2, 1), Ok(seven()));
    // The member alone is dead: the write counts with its commit.
    assert_eq!(owner.flush(262), flushed(262, Ending::Spent));
    assert_eq!(owner.read(5, 1), Err(Refusal::Unwritten));
    assert_eq!(owner.flush(1), flushed(1, Ending::Drained));
    assert_eq!(owner.read(5, 1), Ok(seven()));
}

/// A block that a unit puts is unwritten in its view until the unit writes it, and in the others once it ends.
#[test]
fn a_block_put_in_a_unit_is_unwritten_there() {
    let mut owner = Owner::unwritten();
    assert_eq!(owner.lend().begin(3, 1), Ok(()));
    assert_eq!(owner.lend().new_block(3, 1, 1), Ok(2));
    assert_eq!(owner.reads(2, [0, 3, 5]), [8, 15, 8]);
    assert_eq!(owner.lend().end(3), Ok(()));
    assert_eq!(owner.reads(2, [0, 5]), [15, 8]);
    assert_eq!(owner.flush(65_535), flushed(8, Ending::Drained));
    assert_eq!(owner.reads(2, [0, 5]), [15, 15]);
    assert_eq!(
        lister::lines(&owner.card),
        "segments 1 used 1 entries 4\nlist 1: 1 2\nblock 1: unwritten\nblock 2: unwritten\n"
    );
}

/// A lost unit's write leaves the block unwritten: lost by a cut before its commit, by a mount, or by a conflict.
#[test]
fn a_lost_units_write_does_not_count() {
    let mut owner = Owner::unwritten();
    assert_eq!(owner.lend().begin(1, 1), Ok(()));
    assert_eq!(owner.lend().write(1, 1, &seven(), 0), Ok(()));
    let mut open = owner.clone();
    open.remount();
    assert_eq!(open.reads(1, [0, 1, 5]), [15, 4, 15]);

    let mut cut = owner.clone();
    assert_eq!(cut.lend().end(1), Ok(()));
    assert_eq!(cut.flush(262), flushed(262, Ending::Spent));
    cut.remount();
    assert_eq!(cut.reads(1, [0, 5]), [15, 15]);
    assert_eq!(
        lister::lines(&cut.card),
        "segments 1 used 1 entries 3\nlist 1: 1\nblock 1: unwritten\n"
    );

    assert_eq!(owner.lend().new_list(0), Ok(2));
    assert_eq!(owner.lend().delete_list(1, 2), Ok(()));
    assert_eq!(owner.lend().delete_list(0, 2), Ok(()));
    assert_eq!(owner.reads(1, [0, 1, 5]), [15, 0, 15]);
    assert_eq!(owner.lend().end(1), Err(Refusal::Conflict));
    assert_eq!(owner.reads(1, [0, 1, 5]), [15, 4, 15]);
}

/// "The refusal is 15, after question 9": the range and the length come before, and the list.
#[test]
fn question_15_comes_last() {
    let mut owner = Owner::unwritten();
    for (view, block, length, number) in [
        (6, 1, 256, 4),
        (1, 1, 256, 4),
        (0, 0, 256, 5),
        (0, 65, 256, 5),
        (0, 1, 255, 5),
        (0, 1, 257, 5),
        (0, 2, 256, 8),
        (0, 1, 256, 15),
    ] {
        let mut destination = vec![165; length];
        let refusal = owner.lend().read(view, block, &mut destination);
        assert_eq!(refusal.map_err(Refusal::number), Err(number));
        assert!(destination.iter().all(|&byte| byte == 165));
    }
}

// ---- Document 02, E1 ------------------------------------------------------------------------------------------------

/// A line of a page: a list's number, or none, and its blocks.
fn line(list: Option<u8>, blocks: &[u8]) -> String {
    let number = list.map_or(String::new(), |list| list.to_string());
    let blocks: String = blocks.iter().map(|block| format!("{block:>3}")).collect();
    let line = format!("{number:>4} {blocks}");
    assert!(line.len() <= 38);
    format!("{line:<40}\n")
}

impl Owner {
    /// The page of a view, put into a buffer that is longer; the bytes after it don't change.
    fn page(&mut self, view: u64) -> Result<String, Refusal> {
        let mut buffer = [165; 1_000];
        let length = self.lend().page(view, &mut buffer)?;
        assert!(buffer[length..].iter().all(|&byte| byte == 165));
        Ok(String::from_utf8_lossy(&buffer[..length]).into_owned())
    }

    /// Puts so many blocks on `list`, each behind the last; returns them.
    fn put(&mut self, list: u64, blocks: usize) -> Vec<u8> {
        let mut put = Vec::new();
        for _ in 0..blocks {
            if self.record.queue_room() == 0 {
                assert!(self.flush(65_535).is_ok());
            }
            let predecessor = put.last().map_or(0, |&block| u64::from(block));
            put.extend(self.lend().new_block(0, list, predecessor));
        }
        assert_eq!(put.len(), blocks);
        put
    }
}

/// "An empty list has one line." A view without lists has none.
#[test]
fn a_page_of_nothing_and_of_empty_lists() {
    let mut owner = Owner::formatted(1);
    assert_eq!(owner.page(0), Ok(String::new()));
    assert_eq!(owner.lend().page(0, &mut []), Ok(0));
    assert_eq!(owner.lend().new_list(0), Ok(1));
    assert_eq!(owner.lend().new_list(0), Ok(2));
    assert_eq!(owner.page(0), Ok(line(Some(1), &[]) + &line(Some(2), &[])));
    assert_eq!(owner.page(5), Ok(String::new()));
    assert_eq!(owner.page(1), Err(Refusal::Stream));
    assert_eq!(owner.page(6), Err(Refusal::Stream));
}

/// "Right-aligned in columns 1 to 4", "right-aligned in 3 columns": one digit and two of each.
#[test]
fn columns_of_a_page() {
    let mut owner = Owner::formatted(4);
    for list in 1..=16 {
        assert_eq!(owner.lend().new_list(0), Ok(list));
    }
    assert_eq!(owner.put(1, 9), (1..=9).collect::<Vec<u8>>());
    assert_eq!(owner.put(16, 2), [10, 11]);
    let page = owner.page(0).unwrap_or_default();
    let lines: Vec<&str> = page.lines().collect();
    assert_eq!(lines[0], "   1   1  2  3  4  5  6  7  8  9        ");
    assert_eq!(lines[1], "   2                                    ");
    assert_eq!(lines[15], "  16  10 11                             ");
}

/// "Eleven to a line": a twelfth block, and a twenty-third, begin another.
#[test]
fn eleven_blocks_to_a_line() {
    for blocks in 0..=64 {
        let mut owner = Owner::formatted(2);
        assert_eq!(owner.lend().new_list(0), Ok(1));
        let put = owner.put(1, blocks);
        let mut text = String::new();
        for (number, part) in put.chunks(11).enumerate() {
            text += &line((number == 0).then_some(1), part);
        }
        if blocks == 0 {
            text = line(Some(1), &[]);
        }
        assert_eq!(owner.page(0), Ok(text));
    }
}

/// "Its blocks follow in order": the list's, not the numbers'.
#[test]
fn blocks_of_a_page_in_their_order() {
    let mut owner = Owner::formatted(1);
    assert_eq!(owner.lend().new_list(0), Ok(1));
    for block in 1..=12 {
        assert_eq!(owner.lend().new_block(0, 1, 0), Ok(block));
    }
    let text = line(Some(1), &[12, 11, 10, 9, 8, 7, 6, 5, 4, 3, 2]) + &line(None, &[1]);
    assert_eq!(owner.page(0), Ok(text));
}

/// "Lists ascend", whatever the order of their taking.
#[test]
fn lists_of_a_page_ascend() {
    let mut owner = Owner::formatted(1);
    owner.take_all_lists();
    assert!(owner.flush(65_535).is_ok());
    for list in [1].into_iter().chain(4..=16) {
        assert_eq!(owner.lend().delete_list(0, list), Ok(()));
    }
    assert!(owner.flush(65_535).is_ok());
    assert_eq!(owner.lend().new_list(0), Ok(1));
    assert_eq!(owner.put(1, 1), [1]);
    let mut lists = [0; 16];
    assert_eq!(owner.lend().inventory(0, &mut lists), Ok(3));
    assert_eq!(lists[..3], [2, 3, 1]);
    assert_eq!(
        owner.page(0),
        Ok(line(Some(1), &[1]) + &line(Some(2), &[]) + &line(Some(3), &[]))
    );
    assert_eq!(owner.page(5), Ok(line(Some(2), &[]) + &line(Some(3), &[])));
}

/// A page is a view's: a unit's has its own puts and deletions, the others' none of them before its End.
#[test]
fn pages_of_views() {
    let mut owner = Owner::formatted(1);
    assert_eq!(owner.lend().new_list(0), Ok(1));
    let mut blocks = owner.put(1, 11);
    assert!(owner.flush(65_535).is_ok());
    assert_eq!(owner.lend().begin(1, 1), Ok(()));
    assert_eq!(owner.lend().begin(2, 1), Ok(()));
    assert_eq!(owner.lend().new_block(1, 1, 0), Ok(12));
    assert_eq!(owner.lend().delete_list(2, 1), Ok(()));
    let before = line(Some(1), &blocks);
    blocks.insert(0, 12);
    let behind = line(Some(1), &blocks[..11]) + &line(None, &blocks[11..]);
    assert_eq!(owner.page(1), Ok(behind.clone()));
    assert_eq!(owner.page(2), Ok(String::new()));
    assert_eq!((owner.page(0), owner.page(5)), (Ok(before.clone()), Ok(before.clone())));
    assert_eq!(owner.lend().end(1), Ok(()));
    assert_eq!((owner.page(0), owner.page(5)), (Ok(behind.clone()), Ok(before)));
    assert_eq!(owner.flush(65_535), flushed(7, Ending::Drained));
    assert_eq!(owner.page(5), Ok(behind));
}

/// "A buffer shorter than the text is refused 14, after question 9", and nothing of it changes.
#[test]
fn a_buffer_shorter_than_the_text() {
    let mut owner = Owner::formatted(1);
    assert_eq!(owner.lend().new_list(0), Ok(1));
    owner.put(1, 12);
    for length in [0, 1, 40, 41, 42, 81] {
        let mut buffer = vec![165; length];
        let answer = owner.lend().page(0, &mut buffer);
        assert_eq!(answer.map_err(Refusal::number), Err(14));
        assert!(buffer.iter().all(|&byte| byte == 165));
        assert_eq!(owner.lend().page(1, &mut buffer), Err(Refusal::Stream));
        assert_eq!(owner.lend().page(5, &mut buffer), Ok(0));
    }
    for length in [82, 83, 1_000] {
        let mut buffer = vec![165; length];
        assert_eq!(owner.lend().page(0, &mut buffer), Ok(82));
        assert!(buffer[82..].iter().all(|&byte| byte == 165));
    }
}

/// The longest page: 16 lists, one of them with so many blocks that it has six lines.
#[test]
fn the_longest_page() {
    let mut owner = Owner::formatted(4);
    for list in 1..=16 {
        assert_eq!(owner.lend().new_list(0), Ok(list));
    }
    let blocks = owner.put(16, 55);
    assert_eq!(owner.page(0).unwrap_or_default().len(), 820);
    let last = u64::from(blocks[54]);
    assert_eq!(owner.lend().new_block(0, 16, last), Ok(56));
    let page = owner.page(0).unwrap_or_default();
    assert_eq!((page.len(), page::LONGEST), (861, 861));
    assert!(page.ends_with(&line(None, &[56])));
    owner.put(1, 8);
    assert_eq!(owner.page(0).unwrap_or_default().len(), 861);
    assert_eq!(owner.lend().new_block(0, 1, 0), Err(Refusal::NoneFree));
    assert_eq!(owner.lend().page(0, &mut [0; 860]), Err(Refusal::Page));
}

/// What the page program prints: the page of the persistent state, of a card of up to 64 segments.
#[test]
fn pages_of_cards() {
    for segments in [1, 16, 17, 64] {
        let mut owner = Owner::formatted(segments);
        assert_eq!(page::of_card(&owner.card), b"");
        assert_eq!(owner.lend().new_list(0), Ok(1));
        owner.put(1, 12);
        assert_eq!(page::of_card(&owner.card), b"");
        assert!(owner.flush(65_535).is_ok());
        assert_eq!(page::of_card(&owner.card), owner.page(5).unwrap_or_default().as_bytes());
        owner.card.push(0);
        assert_eq!(page::of_card(&owner.card), b"refused 1\n");
        owner.card[SUMMARY_AT + 1] = 0;
        assert_eq!(page::of_card(&owner.card), b"refused 1\n");
        owner.card.pop();
        assert_eq!(page::of_card(&owner.card), b"refused 2\n");
    }
    assert_eq!(page::of_card(&[]), b"refused 1\n");
    assert_eq!(page::of_card(&vec![0; 65 * SEGMENT_BYTES]), b"refused 1\n");
}

// ---- Document 02, E7 ------------------------------------------------------------------------------------------------

impl Owner {
    /// Units begin for these windows and delete list 1, which stream 0 deletes then: every End is a conflict.
    fn conflicting(windows: &[u64]) -> Owner {
        let mut owner = Owner::begun_and_flushed();
        owner.conflict(1, windows);
        owner
    }

    fn conflict(&mut self, list: u64, windows: &[u64]) {
        for (unit, &window) in (1..).zip(windows) {
            assert_eq!(self.lend().begin(unit, window), Ok(()));
            assert_eq!(self.lend().delete_list(unit, list), Ok(()));
        }
        assert_eq!(self.lend().delete_list(0, list), Ok(()));
    }

    /// The counts of all windows; in the array window 1 is the first.
    fn counts(&mut self) -> [u16; 16] {
        std::array::from_fn(|place| self.lend().conflicts(place as u64 + 1).expect("it is a window"))
    }
}

/// The counts where these windows have counts above 0.
fn counts(raised: &[(usize, u16)]) -> [u16; 16] {
    let mut counts = [0; 16];
    for &(window, count) in raised {
        counts[window - 1] = count;
    }
    counts
}

/// "An End refused 12 raises the count of the window its unit's Begin named and no other": not that of the last Begin.
#[test]
fn the_window_that_the_units_begin_named_is_charged() {
    let mut owner = Owner::conflicting(&[16, 1, 7]);
    assert_eq!(owner.lend().begin(4, 9), Ok(()));
    assert_eq!(owner.counts(), counts(&[]));
    assert_eq!(owner.lend().end(1), Err(Refusal::Conflict));
    assert_eq!(owner.counts(), counts(&[(16, 1)]));
    assert_eq!(owner.lend().end(3), Err(Refusal::Conflict));
    assert_eq!(owner.counts(), counts(&[(16, 1), (7, 1)]));
    assert_eq!(owner.lend().end(2), Err(Refusal::Conflict));
    assert_eq!(owner.counts(), counts(&[(16, 1), (7, 1), (1, 1)]));
    assert_eq!(owner.lend().end(4), Ok(()));
    assert_eq!(owner.counts(), counts(&[(16, 1), (7, 1), (1, 1)]));
}

/// "Two open units may belong to one window", and four too.
#[test]
fn units_may_share_a_window() {
    let mut owner = Owner::conflicting(&[3, 3, 3, 3]);
    for (unit, count) in [(2, 1), (4, 2), (1, 3), (3, 4)] {
        assert_eq!(owner.lend().end(unit), Err(Refusal::Conflict));
        assert_eq!(owner.counts(), counts(&[(3, count)]));
    }
}

/// A unit that begins once more belongs to the window that this Begin names.
#[test]
fn a_unit_begun_again_has_another_window() {
    let mut owner = Owner::conflicting(&[5]);
    assert_eq!(owner.lend().end(1), Err(Refusal::Conflict));
    assert_eq!(owner.lend().new_list(0), Ok(2));
    owner.conflict(2, &[6]);
    // Refused 6 and 5, a Begin names nothing.
    assert_eq!(owner.lend().begin(1, 7), Err(Refusal::Begun));
    assert_eq!(owner.lend().begin(1, 17), Err(Refusal::Range));
    assert_eq!(owner.lend().end(1), Err(Refusal::Conflict));
    assert_eq!(owner.counts(), counts(&[(5, 1), (6, 1)]));
}

/// "Other refusals raise none": 13 least of all, which is an End's too, and 4 of the unit that is closed then.
#[test]
fn other_refusals_raise_no_count() {
    let mut owner = Owner::conflicting(&[2]);
    assert_eq!(owner.lend().end(1), Err(Refusal::Conflict));
    assert_eq!(owner.lend().end(1), Err(Refusal::Stream));
    assert_eq!(owner.lend().end(0), Err(Refusal::Stream));
    assert_eq!(owner.lend().begin(1, 2), Ok(()));
    assert_eq!(owner.lend().new_list(0), Ok(2));
    assert_eq!(owner.lend().new_block(1, 1, 0), Err(Refusal::List));
    assert_eq!(owner.lend().new_block(0, 2, 0), Ok(2));
    while owner.lend().write(0, 2, &seven(), 0).is_ok() {}
    assert_eq!(owner.lend().write(0, 2, &seven(), 0), Err(Refusal::QueueFull));
    assert_eq!(owner.lend().end(1), Err(Refusal::QueueFull));
    assert_eq!(owner.counts(), counts(&[(2, 1)]));
    assert!(owner.flush(65_535).is_ok());
    assert_eq!(owner.lend().end(1), Ok(()));
    assert_eq!(owner.counts(), counts(&[(2, 1)]));
}

/// "A window outside 1 to 16 is refused 5": Begin asks 1, 3, 4, 5, 6, the look-up 1, 3, 5.
#[test]
fn windows_outside_1_to_16_are_refused_5() {
    let outside = [0, 17, 255, 256, 257, 65_537, 1 << 32, (1 << 32) + 1, u64::MAX];
    let mut owner = Owner::formatted(1);
    assert_eq!(owner.lend().begin(1, 16), Ok(()));
    for window in outside {
        for (unit, refusal) in [
            (0, Refusal::Stream),
            (5, Refusal::Stream),
            (1, Refusal::Range),
            (2, Refusal::Range),
        ] {
            assert_eq!(owner.lend().begin(unit, window), Err(refusal));
        }
        assert_eq!(owner.lend().conflicts(window), Err(Refusal::Range));
    }
    for window in 1..=16 {
        assert_eq!(owner.lend().conflicts(window), Ok(0));
        assert_eq!(owner.lend().begin(1, window), Err(Refusal::Begun));
        assert_eq!(owner.lend().begin(2, window), Ok(()));
        assert_eq!(owner.lend().end(2), Ok(()));
    }
    let sound = owner.record;
    owner.record = Record::UNSOUND;
    assert_eq!(owner.lend().begin(5, 17), Err(Refusal::Record));
    assert_eq!(owner.lend().conflicts(0), Err(Refusal::Record));
    owner.record = sound;
    owner.queue_data.pop();
    assert_eq!(owner.lend().begin(5, 17), Err(Refusal::Lengths));
    assert_eq!(owner.lend().conflicts(0), Err(Refusal::Lengths));
}

/// "Each window has its own count, which stops at 65,535 and is 0 after mounting": no wrap, and the others go on.
#[test]
fn counts_stop_each_for_itself() {
    let mut owner = Owner::conflicting(&[4, 4, 5, 4]);
    owner.record.conflicts[2..5].copy_from_slice(&[65_535, 65_534, 65_534]);
    for (unit, fourth, fifth) in [
        (1, 65_535, 65_534),
        (2, 65_535, 65_534),
        (3, 65_535, 65_535),
        (4, 65_535, 65_535),
    ] {
        assert_eq!(owner.lend().end(unit), Err(Refusal::Conflict));
        assert_eq!(owner.counts(), counts(&[(3, 65_535), (4, fourth), (5, fifth)]));
    }
    let mut formatted = owner.clone();
    assert_eq!(formatted.lend().format(), Ok(()));
    assert_eq!(formatted.counts(), counts(&[]));
    // Over a mounting that is accepted, and not over one that is refused.
    let mut refused = owner.clone();
    refused.card[SUMMARY_AT + 1] = 255;
    assert!(refused.lend().mount().is_err());
    assert_eq!(
        refused.record.conflicts,
        counts(&[(3, 65_535), (4, 65_535), (5, 65_535)])
    );
    assert_eq!(owner.lend().mount(), Ok(()));
    assert_eq!(owner.counts(), counts(&[]));
}

/// Question 3 wants the window of every open unit from 1 to 16, and "says nothing of a closed one's".
#[test]
fn question_3_judges_windows_of_open_units() {
    for window in [0, 1, 16, 17, 255] {
        let mut owner = Owner::formatted(1);
        assert_eq!(owner.lend().begin(3, 8), Ok(()));
        owner.record.unit_mut(2).window = window;
        assert_eq!(owner.lend().conflicts(8), Ok(0));
        owner.record.unit_mut(3).window = window;
        let is_sound = (1..=16).contains(&window);
        assert_eq!(owner.lend().conflicts(8).is_ok(), is_sound);
        assert_eq!(
            owner.lend().end(3),
            if is_sound { Ok(()) } else { Err(Refusal::Record) }
        );
    }
}

// ---- Document 02, E10 -----------------------------------------------------------------------------------------------

/// "Bit 6 of the map says that a race byte follows, after the slot": 256 data bytes, four entry bytes and the count.
#[test]
fn a_write_with_a_race_takes_261_stores() {
    for (race, stores, bytes) in [
        (0, 260, &[9, 1, 0][..]),
        (1, 261, &[73, 1, 0, 1]),
        (24, 261, &[73, 1, 0, 24]),
    ] {
        let mut owner = Owner::unwritten();
        assert_eq!(owner.lend().write(0, 1, &seven(), race), Ok(()));
        assert_eq!(owner.race(0, 1), Ok(race as u8));
        assert_eq!(owner.flush(stores - 1), flushed(stores as u32 - 1, Ending::Spent));
        assert_eq!(owner.race(5, 1), Err(Refusal::Unwritten));
        assert_eq!(owner.flush(1), flushed(1, Ending::Drained));
        assert_eq!(owner.summary(0)[0], 3);
        assert_eq!(&owner.summary(0)[6..6 + bytes.len()], bytes);
        // What stands behind the entry was not stored.
        assert_eq!(owner.summary(0)[6 + bytes.len()], 165);
        owner.remount();
        assert_eq!(owner.read_with_race(5, 1), Ok((seven(), race as u8)));
    }
}

/// "Maps 73 and 201 become legal": in a unit, and End's copying keeps the race.
#[test]
fn a_unit_has_its_races() {
    let mut owner = Owner::begun_and_flushed();
    assert_eq!(owner.lend().begin(1, 1), Ok(()));
    assert_eq!(owner.lend().new_block(1, 1, 1), Ok(2));
    assert_eq!(owner.lend().write(1, 2, &[9; BLOCK_BYTES], 24), Ok(()));
    assert_eq!(owner.lend().write(1, 1, &[8; BLOCK_BYTES], 3), Ok(()));
    assert_eq!(owner.lend().write(1, 1, &[8; BLOCK_BYTES], 5), Ok(()));
    assert_eq!((owner.race(1, 2), owner.race(1, 1)), (Ok(24), Ok(5)));
    assert_eq!((owner.race(0, 2), owner.race(0, 1)), (Err(Refusal::Block), Ok(0)));
    assert_eq!(owner.lend().end(1), Ok(()));
    assert_eq!((owner.race(0, 2), owner.race(0, 1)), (Ok(24), Ok(5)));
    assert_eq!(owner.race(5, 1), Ok(0));
    assert_eq!(owner.flush(65_535), flushed(5 + 3 * 261 + 3, Ending::Drained));
    assert_eq!(
        owner.summary(0)[9..27],
        [135, 2, 1, 1, 201, 2, 1, 24, 201, 1, 2, 3, 201, 1, 3, 5, 16, 4]
    );
    owner.remount();
    assert_eq!((owner.race(5, 2), owner.race(5, 1)), (Ok(24), Ok(5)));
}

/// "For which race a pool block was last written": a later write has its own race, or none; so has a block put again.
#[test]
fn the_last_write_has_the_race() {
    let mut owner = Owner::begun(1);
    for race in [7, 0, 24, 24, 1, 0] {
        assert_eq!(owner.lend().write(0, 1, &seven(), race), Ok(()));
        assert_eq!(owner.race(0, 1), Ok(race as u8));
    }
    assert_eq!(owner.lend().write(0, 1, &seven(), 9), Ok(()));
    assert_eq!(owner.flush(65_535), flushed(267 + 2 * 260 + 5 * 261, Ending::Drained));
    assert_eq!(owner.lend().delete_block(0, 1), Ok(()));
    assert_eq!(owner.flush(65_535), flushed(3, Ending::Drained));
    owner.remount();
    assert_eq!(owner.put(1, 64).last(), Some(&1));
    assert!(owner.flush(65_535).is_ok());
    assert_eq!(owner.race(0, 1), Err(Refusal::Unwritten));
    assert_eq!(owner.lend().write(0, 1, &seven(), 0), Ok(()));
    assert_eq!(owner.race(0, 1), Ok(0));
}

/// "A race above 24 in a call is refused 5", in question 5's place.
#[test]
fn a_race_above_24_is_refused_5() {
    let mut owner = Owner::begun(1);
    for race in [25, 26, 255, 256, 65_536, 1 << 32, u64::MAX] {
        assert_eq!(owner.lend().write(0, 1, &seven(), race), Err(Refusal::Range));
        // Before 8, behind 4.
        assert_eq!(owner.lend().write(0, 2, &seven(), race), Err(Refusal::Range));
        assert_eq!(owner.lend().write(1, 1, &seven(), race), Err(Refusal::Stream));
    }
    assert_eq!(owner.lend().write(0, 2, &seven(), 24), Err(Refusal::Block));
    assert_eq!(owner.lend().begin(1, 1), Ok(()));
    for _ in 0..15 {
        assert_eq!(owner.lend().write(1, 1, &seven(), 24), Ok(()));
    }
    assert_eq!(owner.lend().write(1, 1, &seven(), 24), Err(Refusal::JournalFull));
    assert_eq!(owner.lend().write(1, 1, &seven(), 25), Err(Refusal::Range));
    let sound = owner.record;
    owner.record = Record::UNSOUND;
    assert_eq!(owner.lend().write(0, 1, &seven(), 25), Err(Refusal::Record));
    owner.record = sound;
    owner.journal_data.pop();
    assert_eq!(owner.lend().write(0, 1, &seven(), 25), Err(Refusal::Lengths));
}

/// "An entry's length counts bit 6 too": where three bytes are left a write without a race fits, and one with a race opens
/// the next segment, or ends full.
#[test]
fn an_entry_with_a_race_is_a_byte_longer() {
    for (segments, race, ending) in [
        (1, 0, Ending::Drained),
        (1, 24, Ending::Full),
        (2, 0, Ending::Drained),
        (2, 24, Ending::Drained),
    ] {
        // A take, a put, commits of no member and a dead member: 2 + 3 + 250 × 2 + 3 = 508 bytes.
        let mut owner = Owner::formatted(segments);
        let summary: Vec<u8> = [2, 1, 3, 1, 1]
            .into_iter()
            .chain([16, 0].into_iter().cycle().take(500))
            .chain([131, 9, 1])
            .collect();
        owner.card[SUMMARY_AT] = 2 + 250 + 1;
        owner.card[SUMMARY_AT + 1..][..summary.len()].copy_from_slice(&summary);
        owner.remount();
        assert_eq!(owner.lend().write(0, 1, &seven(), race), Ok(()));
        let answer = owner.flush(65_535).expect("the record is sound");
        assert_eq!(answer.ending, ending);
        if segments == 2 {
            assert_eq!(owner.summary(1)[0], u8::from(race > 0));
        }
        if ending == Ending::Drained {
            owner.remount();
            assert_eq!(owner.race(5, 1), Ok(race as u8));
        }
    }
}

/// "A race byte of 0 or above 24 is a fault in mounting", "maps 73 and 201 become legal", and no others.
#[test]
fn race_faults_have_their_place() {
    const START: [u8; 6] = [0, 2, 1, 3, 1, 1];
    let mount = |behind: &[u8], entries: u8| {
        let mut owner = Owner::formatted(1);
        owner.card[SUMMARY_AT..][..START.len()].copy_from_slice(&START);
        owner.card[SUMMARY_AT] = 2 + entries;
        owner.card[SUMMARY_AT + START.len()..][..behind.len()].copy_from_slice(behind);
        match owner.lend().mount() {
            Ok(()) => {
                let race = owner.race(5, 1).unwrap_or(0);
                Ok(race)
            }
            Err(MountRefusal::Log(fault)) => Err((fault.segment, fault.entry)),
            Err(MountRefusal::Lengths) => panic!("the lengths are right"),
        }
    };
    for race in 0..=255 {
        let is_race = (1..=24).contains(&race);
        let expected = |entry| if is_race { Ok(race) } else { Err((0, entry)) };
        assert_eq!(mount(&[73, 1, 0, race], 1), expected(2));
        assert_eq!(mount(&[201, 1, 0, race, 16, 1], 2), expected(2));
        // A dead member is judged too.
        assert_eq!(mount(&[201, 1, 0, race], 1), if is_race { Ok(0) } else { Err((0, 2)) });
    }
    // Bit 6 with any other map: the fields that it would have, and a race.
    for map in (64..128).chain(192..=255).filter(|&map| map != 73 && map != 201) {
        for fields in [[2, 1, 1, 1, 1], [1, 1, 0, 1, 1], [1, 0, 1, 1, 1]] {
            let bytes = [&[map][..], &fields].concat();
            assert_eq!(mount(&bytes, 1), Err((0, 2)), "{map}");
        }
    }
    // The race before the slot; the next entry behind an entry of four bytes; a later write without a race.
    assert_eq!(mount(&[73, 1, 5, 0], 1), Err((0, 2)));
    assert_eq!(mount(&[73, 1, 0, 2, 2, 2], 2), Ok(2));
    assert_eq!(mount(&[73, 1, 0, 2, 9, 1, 1], 2), Ok(0));
    assert_eq!(mount(&[73, 1, 0, 2, 73, 1, 1, 24], 2), Ok(24));
    assert_eq!(mount(&[73, 1, 0, 2, 201, 1, 1, 24], 2), Ok(2));
}

/// An entry with a race whose last byte is behind the summary.
#[test]
fn an_entry_with_a_race_ends_within_the_summary() {
    for left in 1..=4 {
        // A take, a put, and commits of no member.
        let mut summary = vec![2, 1, 3, 1, 1];
        while summary.len() + 2 <= 511 - left {
            summary.extend([16, 0]);
        }
        let mut entries = 2 + (summary.len() - 5) / 2;
        if summary.len() + left < 511 {
            // One byte too many is left: a dead member of three bytes takes the last commit's place.
            summary.truncate(summary.len() - 2);
            summary.extend([131, 9, 1]);
        }
        assert_eq!(summary.len(), 511 - left);
        summary.extend([73, 1, 0, 5].iter().take(left));
        entries += 1;
        let mut owner = Owner::formatted(1);
        owner.card[SUMMARY_AT] = entries as u8;
        owner.card[SUMMARY_AT + 1..].copy_from_slice(&summary);
        let is_whole = left == 4;
        assert_eq!(owner.lend().mount().is_ok(), is_whole, "{left} bytes");
        if is_whole {
            assert_eq!(owner.race(5, 1), Ok(5));
        }
    }
}

/// "Cards written before this mount as before, with race 0"; one without a race has the bytes that it had.
#[test]
fn a_card_without_races_is_as_it_was() {
    let mut owner = Owner::begun_and_flushed();
    assert_eq!(owner.summary(0)[..10], [3, 2, 1, 3, 1, 1, 9, 1, 0, 165]);
    owner.remount();
    assert_eq!(owner.read_with_race(0, 1), Ok((seven(), 0)));
    assert_eq!(owner.read_with_race(5, 1), Ok((seven(), 0)));
}

// ---- Document 02, E6 ------------------------------------------------------------------------------------------------

impl Owner {
    /// The lists of a view, in the inventory's order.
    fn inventory(&mut self, view: u64) -> Vec<u8> {
        let mut lists = [165; 16];
        let count = self.lend().inventory(view, &mut lists).expect("the view is open");
        assert!(lists[count..].iter().all(|&byte| byte == 165));
        lists[..count].to_vec()
    }

    /// Unit 1 takes list 2 and has block 2 on it, written.
    fn with_list_in_unit() -> Owner {
        let mut owner = Owner::begun_and_flushed();
        assert_eq!(owner.lend().begin(1, 1), Ok(()));
        assert_eq!(owner.lend().new_list(1), Ok(2));
        assert_eq!(owner.lend().new_block(1, 2, 0), Ok(2));
        assert_eq!(owner.lend().write(1, 2, &[9; BLOCK_BYTES], 0), Ok(()));
        owner
    }

    /// Stream 0 takes lists up to the last that is free.
    fn take_all_lists(&mut self) {
        while self.lend().new_list(0).is_ok() {}
        assert_eq!(self.lend().new_list(0), Err(Refusal::NoneFree));
    }
}

/// "Only that unit's view has the list. An accepted End takes it": 3 + 4 + 260 + 3 stores.
#[test]
fn a_list_goes_with_its_unit() {
    let mut owner = Owner::with_list_in_unit();
    assert_eq!(owner.lend().begin(2, 1), Ok(()));
    assert_eq!(
        [0, 1, 2, 5].map(|view| owner.inventory(view)),
        [vec![1], vec![1, 2], vec![1], vec![1]]
    );
    assert_eq!(owner.lend().next_block(1, 2, 0), Ok(2));
    for view in [0, 2, 5] {
        assert_eq!(owner.lend().next_block(view, 2, 0), Err(Refusal::List));
    }
    for stream in [0, 2] {
        assert_eq!(owner.lend().new_block(stream, 2, 0), Err(Refusal::List));
        assert_eq!(owner.lend().delete_list(stream, 2), Err(Refusal::List));
        assert_eq!(owner.lend().delete_block(stream, 2), Err(Refusal::Block));
    }
    assert_eq!(owner.page(1), Ok(line(Some(1), &[1]) + &line(Some(2), &[2])));
    assert_eq!(owner.page(0), Ok(line(Some(1), &[1])));
    assert_eq!(owner.flush(65_535), flushed(0, Ending::Drained));
    assert_eq!(owner.lend().end(1), Ok(()));
    assert_eq!(
        [0, 2, 5].map(|view| owner.inventory(view)),
        [vec![1, 2], vec![1, 2], vec![1]]
    );
    assert_eq!(owner.flush(65_535), flushed(270, Ending::Drained));
    assert_eq!(owner.summary(0)[0], 7);
    assert_eq!(owner.summary(0)[9..19], [130, 2, 131, 2, 2, 137, 2, 1, 16, 3]);
    owner.remount();
    assert_eq!(owner.inventory(5), [1, 2]);
    assert_eq!(owner.read(5, 2), Ok([9; BLOCK_BYTES]));
}

/// "A lost unit leaves it in no view": a cut before the commit's last store, and after it.
#[test]
fn a_cut_takes_the_list_with_its_unit() {
    for stores in 0..=270 {
        let mut owner = Owner::with_list_in_unit();
        assert_eq!(owner.lend().end(1), Ok(()));
        assert!(owner.flush(stores).is_ok());
        owner.remount();
        let is_whole = stores == 270;
        let lists = if is_whole { vec![1, 2] } else { vec![1] };
        assert_eq!([owner.inventory(0), owner.inventory(5)], [lists.clone(), lists]);
        assert_eq!(owner.lend().new_list(0), Ok(if is_whole { 3 } else { 2 }));
    }
}

/// A mounting closes the unit: its list is nowhere, and its number is the first that is free.
#[test]
fn a_mounting_takes_the_list_with_its_unit() {
    let mut owner = Owner::with_list_in_unit();
    let card = owner.card.clone();
    owner.remount();
    assert_eq!([owner.inventory(0), owner.inventory(5)], [vec![1], vec![1]]);
    assert_eq!(owner.lend().begin(1, 1), Ok(()));
    assert_eq!(owner.inventory(1), [1]);
    assert_eq!(owner.lend().new_list(1), Ok(2));
    assert!(owner.card == card);
}

/// Refusal 12 leaves it in no view and releases its number, which comes after those never used.
#[test]
fn a_conflict_takes_the_list_with_its_unit() {
    let mut owner = Owner::with_list_in_unit();
    assert_eq!(owner.lend().write(1, 1, &[5; BLOCK_BYTES], 0), Ok(()));
    assert_eq!(owner.lend().delete_block(0, 1), Ok(()));
    // Block 1 is skipped, the list is shown all the same.
    assert_eq!(owner.inventory(1), [1, 2]);
    assert_eq!(owner.lend().end(1), Err(Refusal::Conflict));
    assert_eq!([owner.inventory(0), owner.inventory(5)], [vec![1], vec![1]]);
    assert_eq!(owner.lend().begin(1, 1), Ok(()));
    assert_eq!(owner.inventory(1), [1]);
    assert_eq!(owner.flush(65_535), flushed(3, Ending::Drained));
    assert_eq!(owner.summary(0)[9..12], [33, 1, 165]);
    for list in (3..=16).chain([2]) {
        assert_eq!(owner.lend().new_list(0), Ok(list));
    }
}

/// "The number is held by the unit and so free for no stream": until the unit ends, also if it deletes the list again.
#[test]
fn held_lists_are_given_to_nobody() {
    let mut owner = Owner::formatted(1);
    assert_eq!(owner.lend().begin(1, 1), Ok(()));
    assert_eq!(owner.lend().begin(2, 1), Ok(()));
    assert_eq!(owner.lend().new_list(1), Ok(1));
    assert_eq!(owner.lend().new_list(0), Ok(2));
    assert_eq!(owner.lend().new_list(2), Ok(3));
    owner.take_all_lists();
    let taken: Vec<u8> = [2].into_iter().chain(4..=16).collect();
    assert_eq!(owner.inventory(0), taken);
    let refused = |owner: &mut Owner| [0, 1, 2].map(|stream| owner.lend().new_list(stream));
    assert_eq!(refused(&mut owner), [Err(Refusal::NoneFree); 3]);
    assert_eq!(owner.lend().delete_list(1, 1), Ok(()));
    assert_eq!(refused(&mut owner), [Err(Refusal::NoneFree); 3]);
    // A list that is deleted in the committed state is free; in a unit's view alone it is not.
    assert_eq!(owner.lend().delete_list(2, 5), Ok(()));
    assert_eq!(refused(&mut owner), [Err(Refusal::NoneFree); 3]);
    assert_eq!(owner.lend().delete_list(0, 4), Ok(()));
    assert_eq!(owner.lend().new_list(1), Ok(4));
    assert_eq!(refused(&mut owner), [Err(Refusal::NoneFree); 3]);
    // The unit ends: 1 is free, 4 is taken, and 3 is still held.
    assert_eq!(owner.lend().end(1), Ok(()));
    assert_eq!(owner.lend().new_list(2), Ok(1));
    assert_eq!(owner.lend().new_list(0), Err(Refusal::NoneFree));
    // The other is refused 12: 1 and 3 are free, after 5.
    assert_eq!(owner.lend().delete_list(0, 5), Ok(()));
    assert_eq!(owner.lend().end(2), Err(Refusal::Conflict));
    for list in [5, 1, 3] {
        assert_eq!(owner.lend().new_list(0), Ok(list));
    }
    assert_eq!(owner.lend().new_list(0), Err(Refusal::NoneFree));
}

/// "For this call on streams 1 to 4, 11 can be met": the 16th entry; 10 comes before, and a refusal gives no number.
#[test]
fn a_full_journal_takes_no_list() {
    let mut owner = Owner::formatted(1);
    assert_eq!(owner.lend().begin(4, 1), Ok(()));
    for list in 1..=15 {
        assert_eq!(owner.lend().new_list(4), Ok(list));
    }
    assert_eq!(owner.lend().new_list(4), Err(Refusal::JournalFull));
    assert_eq!(owner.lend().new_list(0), Ok(16));
    assert_eq!(owner.lend().new_list(4), Err(Refusal::NoneFree));
    assert_eq!(owner.lend().end(4), Ok(()));
    let lists: Vec<u8> = [16].into_iter().chain(1..=15).collect();
    assert_eq!(owner.inventory(0), lists);
    assert_eq!(owner.flush(65_535), flushed(17 * 3, Ending::Drained));
    owner.remount();
    assert_eq!(owner.inventory(5), lists);
}

/// "And 13 cannot": the queue is full, and the unit takes its list; its End waits.
#[test]
fn a_unit_takes_a_list_while_the_queue_is_full() {
    let mut owner = Owner::begun(1);
    for _ in 3..32 {
        assert_eq!(owner.lend().write(0, 1, &seven(), 0), Ok(()));
    }
    assert_eq!(owner.lend().begin(1, 1), Ok(()));
    assert_eq!(owner.lend().new_list(0), Err(Refusal::QueueFull));
    assert_eq!(owner.lend().new_list(1), Ok(2));
    assert_eq!(owner.lend().end(1), Err(Refusal::QueueFull));
    assert_eq!(owner.inventory(1), [1, 2]);
    // The first entry drained makes room for one, the second for both.
    assert_eq!(owner.flush(3), flushed(3, Ending::Spent));
    assert_eq!(owner.lend().end(1), Err(Refusal::QueueFull));
    assert_eq!(owner.flush(4), flushed(4, Ending::Spent));
    assert_eq!(owner.lend().end(1), Ok(()));
    assert_eq!(owner.inventory(0), [1, 2]);
}

/// "E3's order counts from then; before that its unit's view shows it after the committed lists, in journal order."
#[test]
fn the_order_of_a_units_lists() {
    let mut owner = Owner::formatted(1);
    assert_eq!(owner.lend().begin(1, 1), Ok(()));
    assert_eq!(owner.lend().begin(2, 1), Ok(()));
    for (stream, list) in [(0, 1), (1, 2), (0, 3), (2, 4), (1, 5), (0, 6)] {
        assert_eq!(owner.lend().new_list(stream), Ok(list));
    }
    assert_eq!(
        [0, 1, 2].map(|view| owner.inventory(view)),
        [vec![1, 3, 6], vec![1, 3, 6, 2, 5], vec![1, 3, 6, 4]]
    );
    assert_eq!(owner.lend().end(2), Ok(()));
    assert_eq!(owner.inventory(1), [1, 3, 6, 4, 2, 5]);
    assert_eq!(owner.lend().new_list(0), Ok(7));
    assert_eq!(owner.inventory(1), [1, 3, 6, 4, 7, 2, 5]);
    assert_eq!(owner.lend().end(1), Ok(()));
    assert_eq!(owner.lend().new_list(0), Ok(8));
    assert_eq!(owner.inventory(0), [1, 3, 6, 4, 7, 2, 5, 8]);
    assert_eq!(owner.flush(65_535), flushed(10 * 3, Ending::Drained));
    assert_eq!(
        owner.summary(0)[..21],
        [10, 2, 1, 2, 3, 2, 6, 130, 4, 16, 1, 2, 7, 130, 2, 130, 5, 16, 2, 2, 8]
    );
    owner.remount();
    assert_eq!(owner.inventory(5), [1, 3, 6, 4, 7, 2, 5, 8]);
}

/// In journal order, not by number: 16 was never used.
#[test]
fn a_units_lists_are_not_sorted() {
    let mut owner = Owner::formatted(1);
    for list in 1..=15 {
        assert_eq!(owner.lend().new_list(0), Ok(list));
    }
    for list in [1, 2, 9] {
        assert_eq!(owner.lend().delete_list(0, list), Ok(()));
    }
    assert_eq!(owner.lend().begin(3, 1), Ok(()));
    for list in [16, 1, 2, 9] {
        assert_eq!(owner.lend().new_list(3), Ok(list));
    }
    let committed: Vec<u8> = (3..=8).chain(10..=15).collect();
    let shown = |own: &[u8]| [&committed, own].concat();
    assert_eq!(owner.inventory(3), shown(&[16, 1, 2, 9]));
    assert_eq!(owner.lend().delete_list(3, 1), Ok(()));
    assert_eq!(owner.inventory(3), shown(&[16, 2, 9]));
    assert_eq!(owner.lend().end(3), Ok(()));
    assert_eq!(owner.inventory(0), shown(&[16, 2, 9]));
}

/// A unit that takes a list and deletes it again: both are journalled, and nothing is left.
#[test]
fn a_list_taken_and_deleted_in_a_unit() {
    let mut owner = Owner::formatted(1);
    assert_eq!(owner.lend().begin(1, 1), Ok(()));
    assert_eq!(owner.lend().new_list(1), Ok(1));
    assert_eq!(owner.lend().new_block(1, 1, 0), Ok(1));
    assert_eq!(owner.lend().delete_list(1, 1), Ok(()));
    assert_eq!(owner.inventory(1), []);
    assert_eq!(owner.lend().new_block(1, 1, 0), Err(Refusal::List));
    assert_eq!(owner.lend().end(1), Ok(()));
    assert_eq!(owner.inventory(0), []);
    assert_eq!(owner.flush(65_535), flushed(3 + 4 + 3 + 3, Ending::Drained));
    assert_eq!(owner.summary(0)[..10], [4, 130, 1, 131, 1, 1, 162, 1, 16, 3]);
    owner.remount();
    assert_eq!(owner.inventory(5), []);
    // The log shows that 1 was used.
    assert_eq!(owner.lend().new_list(0), Ok(2));
}

/// A list deleted under one unit and taken by another satisfies the first once that other has ended.
#[test]
fn a_list_made_again_in_a_unit() {
    let mut owner = Owner::formatted(1);
    owner.take_all_lists();
    assert_eq!(owner.lend().begin(1, 1), Ok(()));
    assert_eq!(owner.lend().begin(2, 1), Ok(()));
    assert_eq!(owner.lend().new_block(1, 7, 0), Ok(1));
    assert_eq!(owner.lend().delete_list(0, 7), Ok(()));
    assert_eq!(owner.lend().new_list(2), Ok(7));
    assert_eq!(owner.lend().next_block(1, 7, 0), Err(Refusal::List));
    let mut early = owner.clone();
    assert_eq!(early.lend().end(1), Err(Refusal::Conflict));
    assert_eq!(owner.lend().end(2), Ok(()));
    assert_eq!(owner.lend().next_block(1, 7, 0), Ok(1));
    assert_eq!(owner.lend().end(1), Ok(()));
    assert_eq!(owner.lend().next_block(0, 7, 0), Ok(1));
}

/// "A held list number is not taken in the committed state and is held once, and each list a journal takes is held by that
/// unit, in the soundness question too."
#[test]
fn question_3_judges_held_lists() {
    let is_sound = |change: &dyn Fn(&mut Record)| {
        let mut owner = Owner::begun(1);
        assert_eq!(owner.lend().begin(1, 1), Ok(()));
        assert_eq!(owner.lend().begin(2, 1), Ok(()));
        assert_eq!(owner.lend().new_list(1), Ok(2));
        change(&mut owner.record);
        owner.lend().conflicts(1).is_ok()
    };
    let take = |list| Change::TakeList { list };
    // Held by a unit, and so no more listed as free.
    let hold = |record: &mut Record, unit, list| {
        record.unit_mut(unit).held_lists.add(list);
        record.free.lists.remove(list);
    };
    assert!(is_sound(&|_| {}));
    // A held number that no journal takes.
    assert!(is_sound(&|record| hold(record, 1, 16)));
    assert!(is_sound(&|record| hold(record, 2, 3)));
    // Taken in the committed state, by the queue.
    assert!(!is_sound(&|record| hold(record, 2, 1)));
    // Held twice.
    assert!(!is_sound(&|record| hold(record, 2, 2)));
    // Held by a unit that is closed.
    assert!(!is_sound(&|record| hold(record, 3, 3)));
    // Taken by a journal and held by nobody, or by another unit.
    assert!(!is_sound(&|record| {
        record.unit_mut(1).held_lists = NumberSet::EMPTY;
        record.free.lists.add(2);
    }));
    assert!(!is_sound(&|record| record.unit_mut(2).add(take(3))));
    assert!(!is_sound(&|record| {
        hold(record, 1, 3);
        record.unit_mut(2).add(take(3));
    }));
    assert!(is_sound(&|record| {
        hold(record, 2, 3);
        record.unit_mut(2).add(take(3));
    }));
    // An entry that doesn't apply is no fault of a journal.
    assert!(is_sound(&|record| record.unit_mut(1).add(take(2))));
    for list in [0, 17] {
        assert!(!is_sound(&|record| record.unit_mut(1).add(take(list))));
    }
}

/// "Map 130 becomes legal as a member": acting, dead, out of range, and not applicable.
#[test]
fn members_that_take_lists_on_a_card() {
    /// The lists of an acceptable log in order, or the entry at fault and what is wrong with it.
    type Expected = Result<&'static [u8], (u8, Cause)>;
    let cards: &[(&[u8], Expected)] = &[
        (&[2, 130, 1, 16, 1], Ok(&[1])),
        (&[2, 130, 16, 16, 1], Ok(&[16])),
        (&[3, 130, 9, 131, 1, 9, 16, 2], Ok(&[9])),
        (&[4, 130, 3, 130, 2, 16, 2, 2, 1], Ok(&[3, 2, 1])),
        (&[4, 130, 1, 162, 1, 130, 1, 16, 3], Ok(&[1])),
        (&[4, 2, 1, 162, 1, 130, 1, 16, 2], Ok(&[1])),
        // Dead: at the end, before a plain entry, before a commit of none, before a commit's own.
        (&[1, 130, 1], Ok(&[])),
        (&[2, 130, 1, 2, 1], Ok(&[1])),
        (&[3, 130, 1, 16, 0, 2, 1], Ok(&[1])),
        (&[3, 130, 1, 130, 2, 16, 1], Ok(&[2])),
        (&[2, 2, 1, 130, 1], Ok(&[1])),
        (&[2, 130, 1, 130, 1], Ok(&[])),
        // Its range is judged, dead or not.
        (&[1, 130, 0], Err((0, Cause::Range))),
        (&[1, 130, 17], Err((0, Cause::Range))),
        (&[1, 130, 255], Err((0, Cause::Range))),
        (&[2, 130, 0, 16, 1], Err((0, Cause::Range))),
        (&[3, 2, 1, 130, 17, 16, 1], Err((1, Cause::Range))),
        // A member's fault in acting is its commit's.
        (&[3, 2, 1, 130, 1, 16, 1], Err((2, Cause::Inapplicable))),
        (&[3, 130, 1, 130, 1, 16, 2], Err((2, Cause::Inapplicable))),
        (&[3, 131, 1, 1, 130, 1, 16, 2], Err((2, Cause::Inapplicable))),
        (&[3, 130, 1, 131, 1, 1, 16, 1], Err((2, Cause::Inapplicable))),
        (&[3, 130, 1, 2, 1, 16, 1], Err((2, Cause::Run))),
        (&[3, 130, 1, 16, 1, 2, 1], Err((2, Cause::Inapplicable))),
    ];
    for &(summary, expected) in cards {
        let mut owner = Owner::formatted(1);
        owner.card[SUMMARY_AT..][..summary.len()].copy_from_slice(summary);
        let answer = match owner.lend().mount() {
            Ok(()) => Ok(owner.inventory(5)),
            Err(MountRefusal::Log(fault)) => Err((fault.entry, fault.cause)),
            Err(MountRefusal::Lengths) => panic!("the lengths are right"),
        };
        assert_eq!(answer, expected.map(<[u8]>::to_vec), "{summary:?}");
    }
}

/// A member that takes a list ends with the summary, and its commit stands in the next segment; or its list is behind the
/// summary.
#[test]
fn a_member_that_takes_a_list_ends_within_the_summary() {
    // Dead puts of three bytes, commits of no member of two: 509 and 510.
    for (puts, commits, is_whole) in [(1, 253, true), (2, 252, false)] {
        let mut summary = [[131, 9, 1].repeat(puts), [16, 0].repeat(commits), vec![130, 7]].concat();
        summary.truncate(511);
        let entries = puts + commits;
        let mut owner = Owner::formatted(2);
        owner.card[SUMMARY_AT] = entries as u8 + 1;
        owner.card[SUMMARY_AT + 1..][..511].copy_from_slice(&summary);
        owner.card[SEGMENT_BYTES + SUMMARY_AT..][..3].copy_from_slice(&[1, 16, 1]);
        match owner.lend().mount() {
            Ok(()) => assert!(is_whole && owner.inventory(5) == [7]),
            Err(MountRefusal::Log(fault)) => {
                assert_eq!(
                    (is_whole, fault.entry, fault.cause),
                    (false, entries as u8, Cause::Bounds)
                );
            }
            Err(MountRefusal::Lengths) => panic!("the lengths are right"),
        }
    }
}

/// A take adds no data: "Only the 256 bytes of a write being added change there; other entries change none."
#[test]
fn a_take_leaves_the_data_buffers() {
    let mut owner = Owner::formatted(1);
    assert_eq!(owner.lend().begin(2, 1), Ok(()));
    assert_eq!(owner.lend().new_list(2), Ok(1));
    assert_eq!(owner.lend().end(2), Ok(()));
    assert!(owner
        .journal_data
        .iter()
        .chain(&owner.queue_data)
        .all(|&byte| byte == 165));
}

// ---- Document 02, E11 -----------------------------------------------------------------------------------------------

impl Owner {
    /// List 1 with blocks 1 to `blocks`, the last first: each is put at the beginning.
    fn with_blocks(blocks: u8) -> Owner {
        let mut owner = Owner::formatted(4);
        assert_eq!(owner.lend().new_list(0), Ok(1));
        for block in 1..=blocks {
            assert_eq!(owner.lend().new_block(0, 1, 0), Ok(block));
        }
        assert!(owner.flush(65_535).is_ok());
        owner
    }

    /// The lists that NewList would give, up to 10.
    fn lists_to_come(&self) -> Vec<u8> {
        let mut owner = self.clone();
        let mut given = Vec::new();
        loop {
            match owner.lend().new_list(0) {
                Ok(list) => given.push(list),
                Err(Refusal::QueueFull) => assert_ne!(owner.flush(65_535), flushed(0, Ending::Full)),
                answer => {
                    assert_eq!(answer, Err(Refusal::NoneFree));
                    return given;
                }
            }
        }
    }

    /// The blocks that NewBlock would give, up to 10. Some list is taken.
    fn blocks_to_come(&self) -> Vec<u8> {
        let mut owner = self.clone();
        let list = u64::from(owner.inventory(0)[0]);
        let mut given = Vec::new();
        loop {
            match owner.lend().new_block(0, list, 0) {
                Ok(block) => given.push(block),
                Err(Refusal::QueueFull) => assert_ne!(owner.flush(65_535), flushed(0, Ending::Full)),
                answer => {
                    assert_eq!(answer, Err(Refusal::NoneFree));
                    return given;
                }
            }
        }
    }

    /// The same, without those never used.
    fn used_blocks_to_come(&self, used: u8) -> Vec<u8> {
        let given = self.blocks_to_come();
        let never = given.iter().position(|&block| block <= used).unwrap_or(given.len());
        assert!(given[..never].iter().copied().eq(used + 1..=64));
        given[never..].to_vec()
    }
}

/// "Numbers never used come first, ascending."
#[test]
fn numbers_never_used_come_first() {
    let mut owner = Owner::formatted(2);
    assert_eq!(owner.lists_to_come(), (1..=16).collect::<Vec<u8>>());
    assert_eq!(owner.lend().new_list(0), Ok(1));
    assert_eq!(owner.blocks_to_come(), (1..=64).collect::<Vec<u8>>());
    // A refusal after question 10 gives nothing: the queue is full.
    for block in 1..=31 {
        assert_eq!(owner.lend().new_block(0, 1, 0), Ok(block));
    }
    assert_eq!(owner.lend().new_block(0, 1, 0), Err(Refusal::QueueFull));
    assert_eq!(owner.lend().new_list(0), Err(Refusal::QueueFull));
    assert_eq!(owner.blocks_to_come(), (32..=64).collect::<Vec<u8>>());
    assert_eq!(owner.lists_to_come(), (2..=16).collect::<Vec<u8>>());
}

/// "NewBlock and NewList now give the number that has been free longest", whatever its number.
#[test]
fn the_number_that_has_been_free_longest() {
    let mut owner = Owner::with_blocks(5);
    for block in [4, 1, 3] {
        assert_eq!(owner.lend().delete_block(0, block), Ok(()));
    }
    assert_eq!(owner.used_blocks_to_come(5), [4, 1, 3]);
    // 4 comes once the others are in use; freed again it is the last.
    while owner.lend().new_block(0, 1, 0) != Ok(4) {
        assert!(owner.flush(65_535).is_ok());
    }
    assert_eq!(owner.lend().delete_block(0, 4), Ok(()));
    assert_eq!(owner.blocks_to_come(), [1, 3, 4]);
    owner.take_all_lists();
    for list in [9, 2, 16] {
        assert!(owner.flush(65_535).is_ok());
        assert_eq!(owner.lend().delete_list(0, list), Ok(()));
    }
    assert_eq!(owner.lists_to_come(), [9, 2, 16]);
    assert_eq!(owner.blocks_to_come(), [1, 3, 4]);
}

/// "Blocks freed by one list deletion count in list order."
#[test]
fn blocks_of_a_deleted_list_in_list_order() {
    let mut owner = Owner::with_blocks(3);
    assert_eq!(owner.lend().new_block(0, 1, 2), Ok(4));
    assert_eq!(owner.lend().new_list(0), Ok(2));
    assert_eq!(owner.lend().new_block(0, 2, 0), Ok(5));
    assert_eq!(owner.lend().delete_block(0, 2), Ok(()));
    assert_eq!(owner.lend().new_block(0, 1, 0), Ok(6));
    assert_eq!(owner.lend().delete_list(0, 1), Ok(()));
    assert_eq!(owner.used_blocks_to_come(6), [2, 6, 3, 4, 1]);
    assert_eq!(owner.lists_to_come().last(), Some(&1));
    assert!(owner.flush(65_535).is_ok());
    owner.remount();
    assert_eq!(owner.used_blocks_to_come(6), [2, 6, 3, 4, 1]);
}

/// A number given in a unit is free for no stream; a deletion in a unit frees nothing until its End.
#[test]
fn numbers_in_a_unit() {
    let mut owner = Owner::with_blocks(3);
    assert_eq!(owner.lend().begin(1, 1), Ok(()));
    assert_eq!(owner.lend().begin(2, 1), Ok(()));
    assert_eq!(owner.lend().delete_block(1, 2), Ok(()));
    assert_eq!(owner.lend().new_block(1, 1, 0), Ok(4));
    assert_eq!(owner.lend().new_block(2, 1, 0), Ok(5));
    assert_eq!(owner.lend().new_block(0, 1, 0), Ok(6));
    assert_eq!(owner.lend().delete_block(1, 4), Ok(()));
    assert_eq!(owner.blocks_to_come(), (7..=64).collect::<Vec<u8>>());
    assert_eq!(owner.lend().delete_list(1, 1), Ok(()));
    assert_eq!(owner.lend().new_list(1), Ok(2));
    assert_eq!(owner.blocks_to_come(), (7..=64).collect::<Vec<u8>>());
    assert_eq!(owner.lists_to_come(), (3..=16).collect::<Vec<u8>>());
}

/// An accepted End frees numbers as its members act; "one that its commit put or took and also freed counts as freed there".
#[test]
fn an_end_frees_as_its_members_act() {
    let mut owner = Owner::with_blocks(4);
    assert_eq!(owner.lend().begin(1, 1), Ok(()));
    for block in [5, 6] {
        assert_eq!(owner.lend().new_block(1, 1, 0), Ok(block));
    }
    for block in [3, 6, 1, 5] {
        assert_eq!(owner.lend().delete_block(1, block), Ok(()));
    }
    assert_eq!(owner.lend().new_list(1), Ok(2));
    assert_eq!(owner.lend().new_list(1), Ok(3));
    for list in [3, 2] {
        assert_eq!(owner.lend().delete_list(1, list), Ok(()));
    }
    // Freed before the End, though after the unit's own deletions.
    assert_eq!(owner.lend().delete_block(0, 4), Ok(()));
    assert_eq!(owner.lend().end(1), Ok(()));
    assert_eq!(owner.used_blocks_to_come(6), [4, 3, 6, 1, 5]);
    assert_eq!(owner.lists_to_come(), (4..=16).chain([3, 2]).collect::<Vec<u8>>());
    assert!(owner.flush(65_535).is_ok());
    owner.remount();
    assert_eq!(owner.used_blocks_to_come(6), [4, 3, 6, 1, 5]);
    assert_eq!(owner.lists_to_come(), (4..=16).chain([3, 2]).collect::<Vec<u8>>());
}

/// A list that a unit deletes has the unit's own blocks too, in list order.
#[test]
fn an_end_frees_a_lists_blocks_in_list_order() {
    let mut owner = Owner::with_blocks(3);
    assert_eq!(owner.lend().begin(4, 1), Ok(()));
    assert_eq!(owner.lend().new_block(4, 1, 3), Ok(4));
    assert_eq!(owner.lend().new_block(4, 1, 1), Ok(5));
    assert_eq!(owner.lend().delete_block(4, 2), Ok(()));
    assert_eq!(owner.lend().delete_list(4, 1), Ok(()));
    assert_eq!(owner.lend().new_list(0), Ok(2));
    assert_eq!(owner.lend().end(4), Ok(()));
    assert_eq!(owner.used_blocks_to_come(5), [2, 3, 4, 1, 5]);
}

/// "Numbers released by a closing unit ascending": at refusal 12, in whatever order the unit was given them.
#[test]
fn refusal_12_releases_ascending() {
    let mut owner = Owner::with_blocks(3);
    while owner.lend().new_block(0, 1, 0).is_ok() {
        assert!(owner.flush(65_535).is_ok());
    }
    for block in [30, 20, 10, 40] {
        assert_eq!(owner.lend().delete_block(0, block), Ok(()));
    }
    assert_eq!(owner.lend().begin(1, 1), Ok(()));
    for block in [30, 20, 10] {
        assert_eq!(owner.lend().new_block(1, 1, 0), Ok(block));
    }
    assert_eq!(owner.lend().delete_block(1, 20), Ok(()));
    assert_eq!(owner.lend().delete_block(1, 64), Ok(()));
    assert_eq!(owner.lend().new_list(1), Ok(2));
    assert_eq!(owner.blocks_to_come(), [40]);
    assert_eq!(owner.lend().delete_block(0, 64), Ok(()));
    assert_eq!(owner.lend().end(1), Err(Refusal::Conflict));
    assert_eq!(owner.blocks_to_come(), [40, 64, 10, 20, 30]);
    assert_eq!(owner.lists_to_come(), (3..=16).chain([2]).collect::<Vec<u8>>());
    // "Holds that no acting entry shows are forgotten."
    assert!(owner.flush(65_535).is_ok());
    owner.remount();
    assert_eq!(owner.blocks_to_come(), [30, 20, 10, 40, 64]);
    assert_eq!(owner.lists_to_come(), (2..=16).collect::<Vec<u8>>());
}

/// Refusal 13 changes nothing; then the End is accepted.
#[test]
fn refusal_13_frees_nothing() {
    let mut owner = Owner::with_blocks(2);
    assert_eq!(owner.lend().begin(1, 1), Ok(()));
    assert_eq!(owner.lend().new_block(1, 1, 0), Ok(3));
    assert_eq!(owner.lend().delete_block(1, 3), Ok(()));
    assert_eq!(owner.lend().delete_block(1, 1), Ok(()));
    for _ in 0..29 {
        assert_eq!(owner.lend().write(0, 2, &seven(), 0), Ok(()));
    }
    let record = owner.record;
    assert_eq!(owner.lend().end(1), Err(Refusal::QueueFull));
    assert_eq!(owner.record, record);
    assert!(owner.flush(65_535).is_ok());
    assert_eq!(owner.lend().end(1), Ok(()));
    assert_eq!(owner.used_blocks_to_come(3), [3, 1]);
}

/// "After mounting, the log's order of freeing counts": what the queue held is forgotten, and so are units.
#[test]
fn mounting_goes_by_the_log() {
    let mut owner = Owner::with_blocks(4);
    assert_eq!(owner.lend().delete_block(0, 3), Ok(()));
    assert_eq!(owner.lend().delete_block(0, 2), Ok(()));
    assert!(owner.flush(65_535).is_ok());
    assert_eq!(owner.lend().new_block(0, 1, 0), Ok(5));
    assert_eq!(owner.lend().delete_block(0, 1), Ok(()));
    assert_eq!(owner.lend().begin(2, 1), Ok(()));
    assert_eq!(owner.lend().new_block(2, 1, 0), Ok(6));
    assert_eq!(owner.used_blocks_to_come(6), [3, 2, 1]);
    let mut drained = owner.clone();
    owner.remount();
    assert_eq!(owner.used_blocks_to_come(4), [3, 2]);
    // The put of 5 and the deletion of 1 are on the card, the unit's put is not.
    assert!(drained.flush(65_535).is_ok());
    drained.remount();
    assert_eq!(drained.used_blocks_to_come(5), [3, 2, 1]);
}

/// Cards byte by byte: numbers never used ascend, and then come those freed.
#[test]
fn the_order_that_a_log_shows() {
    /// The count and the entries; the blocks freed, and the lists freed, that come last.
    type Card = (&'static [u8], &'static [u8], &'static [u8]);
    let cards: &[Card] = &[
        (&[1, 2, 1], &[], &[]),
        (&[3, 2, 1, 3, 9, 1, 33, 9], &[9], &[]),
        // 9 and 7 in the order of their deletion; then 9 is put again, and freed again.
        (&[5, 2, 1, 3, 9, 1, 3, 7, 1, 33, 9, 33, 7], &[9, 7], &[]),
        (&[6, 2, 1, 3, 9, 1, 3, 7, 1, 33, 9, 33, 7, 3, 9, 1], &[7], &[]),
        (&[7, 2, 1, 3, 9, 1, 3, 7, 1, 33, 9, 33, 7, 3, 9, 1, 33, 9], &[7, 9], &[]),
        // In list order, 2 behind 8; the list among the lists.
        (&[5, 2, 5, 2, 1, 3, 8, 5, 7, 2, 5, 8, 34, 5], &[8, 2], &[5]),
        (&[5, 2, 5, 2, 1, 34, 1, 34, 5, 2, 2], &[], &[1, 5]),
        (&[6, 2, 5, 2, 1, 34, 1, 34, 5, 2, 2, 2, 1], &[], &[5]),
        // Members act with their commit, in their order.
        (&[6, 2, 1, 3, 4, 1, 131, 3, 1, 161, 3, 161, 4, 16, 3], &[3, 4], &[]),
        (&[7, 2, 1, 3, 4, 1, 3, 3, 1, 161, 3, 33, 4, 2, 2, 33, 3], &[4, 3], &[]),
        // Dead members free nothing and use nothing: at the end, before a plain entry, before a commit's own.
        (&[3, 2, 1, 131, 3, 1, 161, 3], &[], &[]),
        (&[5, 2, 1, 131, 3, 1, 3, 4, 1, 33, 4, 16, 0], &[4], &[]),
        (&[5, 2, 1, 131, 3, 1, 131, 4, 1, 161, 4, 16, 2], &[4], &[]),
        (&[5, 2, 1, 130, 3, 130, 2, 162, 2, 16, 2], &[], &[2]),
    ];
    for &(summary, blocks, lists) in cards {
        let mut owner = Owner::formatted(2);
        owner.card[SUMMARY_AT..][..summary.len()].copy_from_slice(summary);
        assert_eq!(owner.lend().mount(), Ok(()), "{summary:?}");
        for (to_come, freed) in [(owner.blocks_to_come(), blocks), (owner.lists_to_come(), lists)] {
            let never = to_come.strip_suffix(freed).expect("those freed come last");
            assert!(never.is_sorted(), "{summary:?}");
        }
    }
}

/// A lost unit leaves no trace: its members on the card are dead.
#[test]
fn a_lost_units_numbers_are_never_used() {
    let mut owner = Owner::with_blocks(2);
    assert_eq!(owner.lend().begin(1, 1), Ok(()));
    assert_eq!(owner.lend().new_block(1, 1, 0), Ok(3));
    assert_eq!(owner.lend().delete_block(1, 1), Ok(()));
    assert_eq!(owner.lend().end(1), Ok(()));
    // 4 + 3 + 3 stores; without the last the commit is not there.
    assert_eq!(owner.flush(9), flushed(9, Ending::Spent));
    owner.remount();
    assert_eq!(owner.blocks_to_come(), (3..=64).collect::<Vec<u8>>());
}

/// "Numbers released by a closing unit ascending, after those its commit freed": a held number that no journal puts, which
/// no call leaves and question 3 lets be.
#[test]
fn an_end_releases_after_what_its_commit_freed() {
    let mut owner = Owner::with_blocks(3);
    assert_eq!(owner.lend().begin(1, 1), Ok(()));
    for block in [9, 5] {
        owner.record.unit_mut(1).held_blocks.add(block);
        owner.record.free.blocks.remove(block);
    }
    owner.record.unit_mut(1).held_lists.add(7);
    owner.record.free.lists.remove(7);
    assert_eq!(owner.lend().new_block(1, 1, 0), Ok(4));
    assert_eq!(owner.lend().new_block(1, 1, 0), Ok(6));
    for block in [6, 2] {
        assert_eq!(owner.lend().delete_block(1, block), Ok(()));
    }
    let mut refused = owner.clone();
    assert_eq!(owner.lend().end(1), Ok(()));
    let never: Vec<u8> = [7, 8].into_iter().chain(10..=64).collect();
    assert_eq!(owner.blocks_to_come(), [&never[..], &[6, 2, 5, 9]].concat());
    assert_eq!(
        owner.lists_to_come(),
        (2..=6).chain(8..=16).chain([7]).collect::<Vec<u8>>()
    );
    assert_eq!(refused.lend().delete_block(0, 2), Ok(()));
    assert_eq!(refused.lend().end(1), Err(Refusal::Conflict));
    assert_eq!(refused.blocks_to_come(), [&never[..], &[2, 4, 5, 6, 9]].concat());
}

/// A journal that puts a number twice, freed in between: the second put takes it out again.
#[test]
fn a_put_takes_its_number_out_wherever_it_stands() {
    let mut owner = Owner::with_blocks(3);
    assert_eq!(owner.lend().begin(1, 1), Ok(()));
    assert_eq!(owner.lend().new_block(1, 1, 0), Ok(4));
    for block in [4, 1] {
        assert_eq!(owner.lend().delete_block(1, block), Ok(()));
    }
    let unit = owner.record.unit_mut(1);
    unit.add(Change::PutFirst { block: 4, list: 1 });
    assert_eq!(owner.lend().delete_block(1, 3), Ok(()));
    let mut freed = owner.clone();
    assert_eq!(owner.lend().end(1), Ok(()));
    assert_eq!(owner.used_blocks_to_come(4), [1, 3]);
    assert_eq!(freed.lend().delete_block(1, 4), Ok(()));
    assert_eq!(freed.lend().end(1), Ok(()));
    assert_eq!(freed.used_blocks_to_come(4), [1, 3, 4]);
}

/// "Question 3 wants each free number and no other listed, once, and believes their order."
#[test]
fn question_3_judges_what_is_listed() {
    let is_sound = |change: &dyn Fn(&mut Record)| {
        let mut owner = Owner::begun(1);
        assert_eq!(owner.lend().begin(1, 1), Ok(()));
        assert_eq!(owner.lend().new_list(1), Ok(2));
        assert_eq!(owner.lend().new_block(1, 2, 0), Ok(2));
        assert_eq!(owner.lend().delete_block(1, 1), Ok(()));
        change(&mut owner.record);
        owner.lend().conflicts(1).is_ok()
    };
    let blocks = |listed: &[u8]| is_sound(&|record| record.free.blocks = Order::listing(listed));
    let lists = |listed: &[u8]| is_sound(&|record| record.free.lists = Order::listing(listed));
    let (free_blocks, free_lists): (Vec<u8>, Vec<u8>) = ((3..=64).collect(), (3..=16).collect());
    assert!(blocks(&free_blocks) && lists(&free_lists));
    // Any order is believed.
    let turned = |free: &[u8]| free.iter().rev().copied().collect::<Vec<u8>>();
    assert!(blocks(&turned(&free_blocks)) && lists(&turned(&free_lists)));
    assert!(blocks(&[&free_blocks[9..], &free_blocks[..9]].concat()));
    // A free number missing: the first, the last, one between.
    for missing in [3, 30, 64] {
        let mut listed = free_blocks.clone();
        listed.retain(|&block| block != missing);
        assert!(!blocks(&listed), "{missing}");
        // And another listed twice in its place.
        listed.push(40);
        assert!(!blocks(&listed), "{missing}");
    }
    assert!(!lists(&free_lists[1..]) && !lists(&free_lists[..13]));
    assert!(!blocks(&[]) && !lists(&[]));
    // Listed twice.
    assert!(!blocks(&[&free_blocks[..], &[64]].concat()));
    assert!(!lists(&[&[3], &free_lists[..]].concat()));
    // In use, though a unit deletes it; held by a unit; no number.
    for number in [1, 2, 0, 65, 255] {
        assert!(!blocks(&[&free_blocks[..], &[number]].concat()), "{number}");
        assert!(!blocks(&[&[number], &free_blocks[1..]].concat()), "{number}");
    }
    for number in [1, 2, 0, 17, 255] {
        assert!(!lists(&[&free_lists[..], &[number]].concat()), "{number}");
        assert!(!lists(&[&[number], &free_lists[1..]].concat()), "{number}");
    }
    // A number that is held and not listed is held by nobody any more.
    assert!(!is_sound(&|record| {
        record.unit_mut(1).held_blocks = NumberSet::EMPTY;
        record.unit_mut(1).held_lists = NumberSet::EMPTY;
    }));
}
