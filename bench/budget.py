"""What bench/run --budget measures: for tables of docs/PERFORMANCE.md one ratio each, of instructions where valgrind can count
them, else of processor time, and the most that it may be."""

from measure import COMPARED, Bench, medians, plain_program


def beside_plain(bench):
    """Instructions of the workloads of bench/compare, all in one, to those of the plain program."""
    plain = Bench(plain_program(), bench.folder)
    scripts = [bench.script("compared", usual * 3 // 100, of=of) for of, usual in COMPARED.items()]
    return sum(map(bench.instructions, scripts)) / sum(map(plain.instructions, scripts))


def a_turn(bench, kind, turns, **words):
    return bench.instructions_between(turns, bench.script(kind, turns, **words), bench.script(kind, 0, **words))


def many_calls_before(bench):
    few, many = (a_turn(bench, "calls", 2000, call="stat", history=history) for history in (0, 20000))
    return many / few


def large_directory(bench):
    small, large = (bench.instructions(bench.script("entries", count)) / count for count in (500, 4000))
    return large / small


def with_threads(bench, nodes):
    """The processor time of eight clients' calls with threads, to that on one thread."""
    words = [bench.program, bench.script("crowd", 2000, nodes=nodes, clients=8)]
    threads, one = medians([[*words, "--threads"], words], 9)
    return threads.processors / one.processors


def threads_on_one_node(bench):
    return with_threads(bench, 1)


def threads_on_four_nodes(bench):
    return with_threads(bench, 4)


def check_of_history(bench):
    scripts = [(count, bench.checked("mixed", count), bench.script("mixed", count)) for count in (1000, 10000)]
    short, long = (bench.instructions_between(*of_count) for of_count in scripts)
    return long / short


def optimistic_records(bench):
    digested = {"pessimistic": 0, "optimistic": 0}
    for of in ("mail", "pages"):
        for behind in (4, 64):
            for mode in digested:
                digested[mode] += bench.records_digested(of=of, behind=behind, mode=mode)
    return digested["optimistic"] / digested["pessimistic"]


def transaction(bench):
    one, eight = (a_turn(bench, "journal", 50, nodes=nodes) for nodes in (1, 8))
    return eight / one


def long_fsync(bench):
    short, long = (a_turn(bench, "fsyncs", 200 // written, written=written) / written for written in (10, 100))
    return long / short


# A name, what measures it, and the most that it may be: what was measured when it was set, and a tenth at most; in processor time,
# which other work on the machine sways, twice as much.
BUDGETS = (
    # All seven workloads beside the plain program.
    ("plain", beside_plain, 1.05),
    # A stat behind 20,000 others, to one behind none.
    ("before", many_calls_before, 1.05),
    # A create in a directory that gets 4,000 entries, to one where it gets 500.
    ("directory", large_directory, 1.15),
    # Processor time of eight clients with threads, to that on one thread, on one node.
    ("threads", threads_on_one_node, 2.8),
    # The same on four nodes, where calls wait for frames.
    ("crowd", threads_on_four_nodes, 2.8),
    # A call's part of a check, of 10,000 calls to that of 1,000, where the larger root takes longer to look up in.
    ("check", check_of_history, 1.65),
    # Records that are digested of an optimistic client's calls, to those of a pessimistic one's, of the whole table.
    ("optimistic", optimistic_records, 0.73),
    # The calls of a transaction of SQLite on eight nodes, to those on one.
    ("transaction", transaction, 7.0),
    # A write's part of an fsync behind 100 writes, to that behind 10.
    ("fsync", long_fsync, 1.10),
)


def passes(bench):
    """Measures all, prints each, and answers the status."""
    failed = 0
    for name, measured_by, most in BUDGETS:
        measured = measured_by(bench)
        failed += measured > most
        print(f"{name}: measured {measured:.2f}, at most {most:.2f}{', over' if measured > most else ''}")
    print(f"{len(BUDGETS) - failed} passed, {failed} failed")
    return 1 if failed else 0
