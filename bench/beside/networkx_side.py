"""networkx's all_simple_paths on the driver's cases: networkx_side.py CASES SECONDS.

The graph is made before the clock starts, with the links in rising order, so that the first chains are the same as ours. Writes the
driver's lines, without figures of ours; none where networkx is not there."""

import itertools
import json
import signal
import sys
import time

try:
    import networkx
except ImportError:
    print("networkx is not there: going on without it", file=sys.stderr)
    sys.exit(0)

WORD = (1 << 64) - 1


class Over(Exception):
    pass


def stop(_signal, _frame):
    raise Over


def chain_checksum(persons):
    """As the driver's, so that the sums over all chains can be compared."""
    total = 0
    for person in persons:
        total = (total * 1000003 + person + 1) & WORD
    return (total ^ total >> 29) * 0x9E3779B97F4A7C15 & WORD


def listed(graph, case, question):
    start, end, hops = question
    chains = networkx.all_simple_paths(graph, start, end, cutoff=hops)
    return list(chains if case["whole"] else itertools.islice(chains, case["room"]))


def printed(graph, case, question):
    """As listed, with each chain's line printed to nowhere when it is found."""
    start, end, hops = question
    found = []
    with open("/dev/null", "w") as nowhere:
        for chain in networkx.all_simple_paths(graph, start, end, cutoff=hops):
            nowhere.write(f"{len(chain) - 1}: {' '.join(map(str, chain))}\n")
            found.append(chain)
        nowhere.write(f"end {len(found)}\n")
    return found


def run(work, graph, case):
    """The processor time of all questions, and the count and checksum of their chains; only the lists are timed. The thread's
    clock, because that of the process moves by ticks while the timer runs that stops it."""
    seconds, count, checksum = 0.0, 0, 0
    for question in case["questions"]:
        start = time.thread_time()
        found = work(graph, case, question)
        seconds += time.thread_time() - start
        count += len(found)
        checksum = (checksum + sum(map(chain_checksum, found))) & WORD
    return seconds, count, checksum


def tell(key, name, work, graph, case, most):
    """The least of five runs, or of one if it is long. Only the first can be stopped."""
    state, (seconds, count, checksum) = "done", (most, 0, 0)
    signal.setitimer(signal.ITIMER_PROF, most)
    try:
        seconds, count, checksum = run(work, graph, case)
        signal.setitimer(signal.ITIMER_PROF, 0)
        for _ in range(4 if seconds < 0.5 else 0):
            seconds = min(seconds, run(work, graph, case)[0])
    except Over:
        state = "over time"
    print(key, name, "networkx", state, 0, 0, count, checksum, 0, seconds, sep="\t", flush=True)


def main(cases, most):
    signal.signal(signal.SIGPROF, stop)
    for case in map(json.loads, open(cases)):
        print(f"networkx: {case['name']}", file=sys.stderr)
        graph = networkx.DiGraph()
        graph.add_nodes_from(range(case["persons"]))
        graph.add_edges_from(case["links"])
        tell(case["key"], case["name"], listed, graph, case, most)
        if case["printed"]:
            tell("program-" + case["key"], "program, " + case["name"], printed, graph, case, most)


main(sys.argv[1], float(sys.argv[2]))
