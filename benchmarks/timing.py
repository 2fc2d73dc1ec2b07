"""Runs of a program, with the processor time and the memory that they took."""
import os


def run_once(words, folder):
    """Runs a call in the folder; gives status, processor seconds, megabytes."""
    child = os.fork()
    if child == 0:
        os.chdir(folder)
        out = os.open("said", os.O_WRONLY | os.O_CREAT | os.O_TRUNC)
        os.dup2(out, 1)
        os.execv(words[0], words)
    _, ended, usage = os.wait4(child, 0)
    return os.waitstatus_to_exitcode(ended), usage.ru_utime + usage.ru_stime, usage.ru_maxrss / 1024


def measure(calls, folder, runs):
    """The greatest status, the least processor seconds of all calls and the most megabytes of one, of some runs."""
    results = [[run_once(words, folder) for words in calls] for _ in range(runs)]
    return (max(status for status, _, _ in results[0]), min(sum(seconds for _, seconds, _ in run) for run in results),
            max(size for run in results for _, _, size in run))
