"""Inputs dealt out to several processes, and what their tallies come to."""
import multiprocessing
import pickle
import sys
import tempfile

from tally import Tally


def added_up(compared, arguments):
    """The comparisons with all the inputs, dealt out to processes in turn; `compared` makes them of the arguments and a share. Where one of the
    processes fails, or is killed, so does the run."""
    context = multiprocessing.get_context("fork")
    started = []
    for first in range(arguments.jobs):
        file = tempfile.TemporaryFile()
        share = slice(first, None, arguments.jobs)
        process = context.Process(target=write_compared, args=(file, compared, arguments, share), daemon=True)
        process.start()
        started.append((process, file))
    comparisons = []
    for process, file in started:
        process.join()
        if process.exitcode != 0:
            sys.exit(f"a process of the comparison ended with {process.exitcode}")
        file.seek(0)
        comparisons.append(pickle.load(file))
    total, *others = comparisons
    for other in others:
        for comparison, more in zip(total, other):
            comparison.add(more)
    for comparison in total:
        comparison.show_kept()
    return total


def write_compared(file, compared, arguments, share):
    """What one of several processes does. A file takes any number of bytes, so that the process ends whether or not it is waited for."""
    Tally.at_once = False
    with file:
        pickle.dump(compared(arguments, share), file)


def all_compared(compared, arguments):
    """The comparisons with all the inputs, by as many processes as --jobs says."""
    return compared(arguments, slice(None)) if arguments.jobs == 1 else added_up(compared, arguments)


def missed_by(comparisons):
    """Prints what was met and what was not, and says how many rules were missed."""
    for comparison in comparisons:
        comparison.conclude()
    missed = [rule for comparison in comparisons for rule in comparison.missed()]
    for rule in missed:
        print(rule)
    return len(missed)
