"""What may be named, and where. steps.py refuses all else."""

# The first words of paths that lead out of the product.
OUTSIDE = {"std", "core"}


def paths(text):
    return text.split()


# What any crate may name: values, memory, and what stands in clauses alone. None of these is shared, and none waits.
EVERYWHERE = paths("""
    std::alloc::AllocError std::alloc::Global std::marker::Model std::snapshot::Snapshot std::snapshot::Snapshot::of
    std::cmp::Reverse std::fmt::Debug std::fmt::Display std::hash::Hash std::hash::Hasher std::mem::drop std::mem::replace
    std::collections::BTreeMap std::collections::BTreeMap::new std::collections::BTreeSet std::collections::BTreeSet::new
    std::collections::HashSet std::collections::HashSet::new std::collections::LinkedList
    std::collections::VecDeque std::collections::VecDeque::from std::collections::VecDeque::new std::marker::PhantomData
    arrayvec::ArrayVec arrayvec::ArrayVec::from arrayvec::ArrayVec::new itoa::Buffer::new
""")

# The crates that name nothing more.
PLAIN = """
    at_base at_broadcast at_calling at_fold at_history at_log at_machines at_object at_pages at_payments at_requests at_snapshot
    at_stepper at_tables
""".split()

# What others may name beside that.
PATHS = [
    # The table of the board, and the word that `meet` loads.
    (["at_board"], paths("""
        atomic_table::Closed atomic_table::Join atomic_table::Play atomic_table::Seat atomic_table::Shared atomic_table::Split
        atomic_table::Table atomic_table::Table::of_words atomic_table::TableRule
        std::marker::Brand
        std::sync::atomic::Ordering::SeqCst std::sync::atomic::raw std::sync::atomic::raw::load
    """)),
    # The places of at_c, and what its callers hold of one ledger. Programs in C bring their own threads.
    (["at_c"], paths("""
        counted_slot::Counted counted_slot::Counted::new counted_slot::FREE counted_slot::Fits counted_slot::TAKEN
        std::sync::Arc std::sync::Arc::new std::sync::Arc::try_clone std::sync::Arc::try_unwrap
        std::alloc::Allocator std::ptr::null_mut
    """)),
    # Files of words.
    (["at_ledger", "at_files", "at_io", "at_orders"], paths("thiserror::Error")),
    (["at_files", "at_orders"], paths("indexmap::IndexSet indexmap::IndexSet::new")),
    (["at_orders"], paths("indexmap::IndexMap indexmap::IndexMap::new std::slice::from_ref")),
    (["at_logs"], paths("sha2::Digest sha2::Sha256 sha2::Sha256::digest")),
    (["at_follow"], paths("hex::FromHexError hex::FromHexError::OutOfMemory hex::decode hex::encode")),
    (["at_files"], paths("""
        csv::ByteRecord csv::ByteRecord::new csv::Reader csv::ReaderBuilder csv::ReaderBuilder::new memchr::memchr2
    """)),
    (["at_verify"], paths("memchr::memchr memchr::memrchr")),
    # The outer world.
    (["at_io"], paths("std::fs std::fs::open std::io std::io::Read std::io::Write std::rt::Files")),
    (["at_commands"], paths("std::env::args std::io std::io::ErrorKind::OutOfMemory std::rt::Env")),
    (["at_program"], paths("std::mem std::mem::forget std::process::ExitCode std::process::ExitCode::from")),
    (["at_example"], paths("anyhow::Result std::io std::io::Result")),
    # Threads that are started and joined by one call of std.
    (["at_agree", "at_commands", "at_example", "at_journal", "at_program", "at_report", "at_workers"],
     paths("std::thread::Threads")),
    (["at_agree", "at_workers"], paths("std::thread::for_each_mut")),
    (["at_commands"], paths("std::thread::join_mut std::thread::map_vec")),
    (["at_journal"], paths("std::thread::map_indices")),
    (["at_report"], paths("std::thread::join")),
]
# Libraries that crates.txt gives a crate for what it names of others.
UNNAMED = {"at_object": ["atomic_table"], "at_c": ["atomic_table", "core", "std_alloc"]}

# What needs no import.
PRELUDE = set("""
    Box Option Result Some None Ok Err String Vec AllocGlobal HostRuntime Print
    Copy Clone Debug Default Drop Eq FnOnce From Hash Ord PartialEq PartialOrd Send Sync
""".split())

# What std and the kit name within a path, and their methods.
METHODS = set("""
    File ErrorKind OutOfMemory Result Write MAX from_array from_be_bytes from_raw from_slice into_raw_with_allocator with_capacity
    all alloc any as_bytes as_mut_slice as_ref as_str capacity checked_add checked_mul checked_sub clear contains copied copy_from_slice
    enumerate extend_from_slice filter flexible flush fold format free from_reader get get_index_of get_mut has_headers insert into_iter
    is_ascii_digit is_ascii_lowercase is_empty is_err is_none is_null is_ok is_some iter iter_mut len map map_err max min new next
    partition_point pop pop_first pop_front push push_back push_back_reserved push_reserved read_byte_record reserve resize retain saturating_add saturating_mul saturating_sub
    skip split_at split_first stderr stdout strip_prefix take to_be_bytes to_vec truncate try_extend_from_slice unwrap unwrap_or wrapping_add wrapping_mul zip
""".split())

MACROS = {"matches", "unreachable", "vec"}
# Who prints: a write may wait.
PRINTS = ["at_example"]
EXPORT = "unsafe ( no_mangle )"
ATTRIBUTES = ("cfg ( test )", "cycle ( ", "derive ( ", "error ( ", "error_bound", "inline ( always )", "repr ( C )", "tactic ( ", EXPORT)

# The traits of others that crates implement. What calls a method of a trait may be any crate below.
TRAITS = [
    ("all", paths("std::marker::Model")),
    (["at_board"], paths("Drop atomic_table::Join atomic_table::Play atomic_table::Split atomic_table::TableRule")),
    (["at_c"], paths("Send counted_slot::Fits")),
    (["at_files", "at_orders", "at_stepper"], paths("Drop")),
    (["at_board", "at_log", "at_requests"], paths("Default")),
    (["at_orders", "at_report"], paths("From")),
    (["at_commands"], paths("at_report::Journal")),
]

# Where calls of the ledger are made stands no crate below that may name this: a call waits for no file, it starts no thread, and no
# overview is made.
APART = [
    (["at_object", "at_workers", "at_agree", "at_c"], "std::fs"),
    (["at_object", "at_workers", "at_agree"], "std::thread::Threads"),
    (["at_workers", "at_agree", "at_c"], "at_object::learn_overview"),
]

# What only some crates may name of the product: their caller has the seats of all processes, whose lists an overview puts together, so no
# thread hears of another by it.
SHOWN = ["at_board::Overview", "at_object::learn_overview"]
PATHS += [(["at_object"], SHOWN[:1]), (["at_machines", "at_calling", "at_stepper"], SHOWN)]

# The object, and what it stands on.
OBJECT = """
    at_base at_ledger at_history at_board at_log at_requests at_snapshot at_fold at_payments at_object
""".split()

# Words that stand at their places alone, whatever they mean there. They are the steps on a shared word, what waits or has another thread
# wait, what starts a thread, what makes a board, what is called that others hand in, and by what a program is reached.
KEPT = set("""
    load store swap exchange compare_exchange compare_exchange_weak compare_exchange_with compare_and_swap fetch_add fetch_sub fetch_and
    fetch_or fetch_xor fetch_nand fetch_not fetch_max fetch_min fetch_update try_update saturating_increment fence compiler_fence
    peek slot_mut load_new_seat swap_new_seat split_seat join_seat close_with of_words
    lock try_lock unlock try_read try_write borrow borrow_mut try_borrow try_borrow_mut call_once get_or_init get_or_try_init try_insert
    clone try_clone upgrade downgrade try_unwrap wait wait_while wait_timeout wait_and_take wait_and_decrement notify_one notify_all
    park park_timeout wake wake_one wake_all unpark send try_send recv try_recv channel sync_channel bounded unbounded
    spawn spawn_with spawn_scoped scope join join_mut for_each_mut map_indices map_vec forever sleep yield_now spin_loop pause
    from_raw into_raw_with_allocator unsafe static union async await while loop
    Board::new Ledger::new .overview add_to_overview learn_overview
    run_all propose_all HostRuntime AllocGlobal Print FnOnce dyn fn
""".split())
# Words that are kept so in some crates.
KEPT_IN = [
    # Those of the board's table and of its counts.
    (["at_board"], set("""
        raw shared Shared made StepCounts count_step count_exchange meet make_note take_in deal gather Overview
    """.split())),
    # Those of the places of at_c, and of what its callers hold of one ledger.
    (["at_c"], set("""
        turn done Counted Arc Arc::new take_given take_next take_back .give .give_back .gathered .close .note .learn for MAX
    """.split())),
    # What takes memory, for which threads may wait: no call of the object does. What takes it for itself has an allocator.
    ([*OBJECT, "at_workers", "at_c"], set("""
        Box::new vec push reserve resize insert append extend_from_slice try_extend_from_slice to_vec with_capacity from_array from_slice
    """.split())),
    ([*OBJECT, "at_workers"], {"Global"}),
]

# In a function with one of these words all is run once and in order: it has no loop, no closure, no branch and no early end.
STRAIGHT = {"count_step", "count_exchange", "make_note", "take_in", "meet", "load", "store", "compare_exchange", "split_seat", "join_seat"}
# In one with one of these it is run once at most: it has no loop and no closure.
ONCE = {
    "turn", "take_given", ".give", ".give_back", ".gathered", ".close", ".note", ".learn", "Arc::new", "try_clone", "try_unwrap",
    "Board::new", "Ledger::new", ".overview", "add_to_overview", "learn_overview",
}
# These stand in no braces of their function, so that no loop starts threads: those that are joined again and again wait for each other.
STARTS = {"for_each_mut", "map_indices", "map_vec", "join", "join_mut", "run_all", "propose_all"}
# Functions that two types of a file have by one name.
TWICE = {"at_c/closing.rt close", "at_c/closing.rt give_back", "at_c/notes.rt learn", "at_c/notes.rt note"}
# What makes a seat of each process, and gathers them, before and after all steps. And words that mean other things in these.
FREE = {
    "at_board/deal.rt deal", "at_board/close.rt gather",
    "at_broadcast/node.rt deliver", "at_broadcast/progress.rt store", "at_broadcast/progress.rt store_all", "at_commands/commanding.rt command_text",
    "at_pages/curves.rt publishing_turn", "at_pages/loads.rt first_load",
}

# Each function that has such words, and these in their order; - is what stands in no function.
PLACES = """
    at_base/numbers.rt push_number: extend_from_slice
    at_ledger/account.rt copy: try_extend_from_slice
    at_ledger/book.rt copy: Global push
    at_ledger/book.rt new: Global
    at_ledger/book.rt openings: Global
    at_ledger/book.rt with_openings: Global push
    at_ledger/book.rt with_usable_room: Global
    at_ledger/builder.rt add: push
    at_ledger/builder.rt new: Global
    at_ledger/draft.rt checked_owners: push
    at_ledger/state.rt carried: Global
    at_ledger/state.rt new: Global vec vec
    at_io/reading.rt read_whole: while
    at_io/writing.rt put_all: while
    at_report/by_threads.rt halves: join
    at_report/by_threads.rt quarters: join
    at_report/by_threads.rt report_in_pieces: join
    at_board/addresses.rt log_starts: push
    at_board/addresses.rt slots_before: Global push push
    at_board/announce.rt announce: made count_step shared store
    at_board/board.rt -: Global
    at_board/board.rt new: Global vec of_words deal shared
    at_board/board_end.rt -: Global
    at_board/close.rt close: gather shared close_with
    at_board/close.rt gather: shared Shared meet shared shared join_seat
    at_board/counter.rt -: StepCounts
    at_board/counter.rt count_exchange: count_step
    at_board/counter.rt none: StepCounts StepCounts
    at_board/deal.rt deal: Global shared Shared shared split_seat push made StepCounts push made StepCounts
    at_board/deal.rt no_requests: Global vec
    at_board/decide.rt decide: made count_exchange shared compare_exchange
    at_board/layout.rt of: Global
    at_board/load_announced.rt load_announced: made count_step shared load
    at_board/load_length.rt load_length: made count_step shared load
    at_board/load_record_word.rt load_record_word: made count_step shared load
    at_board/load_request_word.rt load_request_word: made count_step shared load
    at_board/meet.rt meet: Shared unsafe raw load raw
    at_board/note.rt learn: made count_exchange take_in
    at_board/note.rt make_note: shared split_seat
    at_board/note.rt note: made count_exchange make_note
    at_board/note.rt take_in: shared shared meet shared shared join_seat
    at_board/overview.rt -: Overview
    at_board/overview.rt add_to_overview: Overview shared shared meet shared shared split_seat shared join_seat
    at_board/overview.rt learn_overview: Overview shared split_seat take_in
    at_board/overview.rt overview: Overview Overview shared split_seat
    at_board/publish.rt publish: made count_step shared store
    at_board/seat.rt -: made StepCounts
    at_board/seat.rt exchanges: made
    at_board/seat.rt into_seat: made
    at_board/seat.rt steps: made
    at_board/store_record_word.rt store_record_word: made count_step shared store
    at_board/store_request_word.rt store_request_word: made count_step shared store
    at_board/words.rt targets_from: push
    at_requests/asked.rt add: push
    at_snapshot/snapshots.rt snapshot: loop
    at_fold/account_totals.rt new: Global vec push
    at_fold/slot_totals.rt new: Global vec
    at_fold/totals.rt new: Global push
    at_payments/own_payments.rt pay_single: append
    at_payments/rounds.rt publish: append
    at_payments/shared_payments.rt pay_shared: loop
    at_machines/collecting.rt load_after: learn_overview
    at_stepper/beginning.rt first_overview: .overview
    at_stepper/beginning.rt memory_for: Ledger::new
    at_stepper/caller.rt learn: learn_overview
    at_stepper/caller.rt overview: .overview
    at_stepper/caller.rt show: add_to_overview
    at_stepper/replaying.rt run_out: while
    at_object/close.rt close: Global
    at_object/close.rt memory_for: Global with_capacity
    at_object/close.rt rooms_for: Global push with_capacity
    at_object/ledger.rt new: Global Board::new
    at_object/ledger.rt passes_for: Global with_capacity push
    at_object/notes.rt learn_overview: learn_overview
    at_journal/by_threads.rt held_by_threads: map_indices
    at_journal/by_threads.rt keyed_by_threads: map_indices
    at_orders/trail.rt has: while
    at_orders/walk.rt walk_on: while
    at_tables/kinds_table.rt push_groups: while
    at_tables/sentence.rt push_agreements: while
    at_pages/curves.rt publishing_turn: load load
    at_pages/loads.rt first_load: load load load
    at_broadcast/node.rt deliver: store
    at_broadcast/progress.rt settle: while
    at_broadcast/progress.rt store: store
    at_broadcast/progress.rt store_all: store
    at_logs/compact.rt settle: while
    at_logs/node.rt reaches: while
    at_logs/node.rt tell_to: while
    at_follow/following.rt tell_all: while
    at_commands/commanding.rt answer_by: FnOnce
    at_commands/commanding.rt command_text: FnOnce load
    at_commands/given.rt words_given: AllocGlobal
    at_commands/opening.rt open: Ledger::new
    at_commands/opening.rt open_and_load: join_mut
    at_commands/playing.rt closed_after: Ledger::new
    at_commands/playing.rt jobs_for: map_vec
    at_commands/playing.rt make_calls: run_all
    at_program/main.rt main: HostRuntime
    at_workers/job.rt new: Global with_capacity
    at_workers/job.rt noting: Global with_capacity
    at_workers/running.rt run_all: for_each_mut
    at_example/main.rt closed_after: Ledger::new
    at_example/main.rt main: HostRuntime
    at_example/main.rt print_call: Print
    at_example/main.rt print_journal: Print
    at_example/main.rt print_line: Print
    at_example/threads.rt make_all: run_all
    at_agree/agreement.rt agree: propose_all
    at_agree/agreement.rt propose_all: for_each_mut
    at_agree/council.rt new: Ledger::new
    at_c/caller.rt -: Arc
    at_c/caller.rt give_back: .give
    at_c/caller.rt learn: .learn
    at_c/caller.rt new: Arc
    at_c/caller.rt note: .note
    at_c/calls.rt are_targets_on: for
    at_c/closing.rt close: .gathered .close
    at_c/closing.rt give_back: .give_back .give_back
    at_c/ending.rt go_on: .close
    at_c/exports.rt bezglami_close: .close
    at_c/exports.rt bezglami_learn: .learn
    at_c/exports.rt bezglami_note: .note
    at_c/exports.rt bezglami_return: .give_back
    at_c/gathered.rt closed: .close
    at_c/handing.rt hand_out: Box::new
    at_c/handing.rt open: Box::new
    at_c/handle.rt -: unsafe
    at_c/loose.rt into_box: unsafe from_raw
    at_c/loose.rt of: into_raw_with_allocator
    at_c/notes.rt learn: .learn .learn
    at_c/notes.rt note: .note .note
    at_c/opened.rt -: Arc
    at_c/opened.rt gathered: take_back Arc try_unwrap
    at_c/opened.rt hand_out: with_capacity Arc try_clone
    at_c/opened.rt new: Ledger::new
    at_c/opened.rt of: with_capacity with_capacity Arc Arc::new
    at_c/opened.rt take_back: for take_next
    at_c/opened.rt take_next: take_given
    at_c/opened.rt with_unused: for
    at_c/shared.rt -: Counted Counted
    at_c/shared.rt give: turn done
    at_c/shared.rt learn: turn done
    at_c/shared.rt learned: .learn
    at_c/shared.rt note: turn done
    at_c/shared.rt noted: .note
    at_c/shared.rt place_of: Counted
    at_c/shared.rt places_of: Counted with_capacity for push Counted
    at_c/shared.rt take_given: turn done
    at_c/target.rt near_account: MAX
    at_c/target.rt targets_of: for push
"""
