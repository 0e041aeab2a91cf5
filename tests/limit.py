"""Runs a command that must end. It is limited in processor time, of which a busy machine takes nothing."""
import signal
import subprocess

CLOCK = 30  # seconds by the clock for each one of processor time: what waits ends, too


class Stopped(Exception):
    """Says that a command was stopped, and which limit it met."""


def run(words, seconds, **how):
    """subprocess.run of the words, which may take so many seconds of processor time."""
    limited = ["bash", "-c", 'ulimit -St "$0" && exec "$@"', str(seconds), *map(str, words)]
    try:
        ended = subprocess.run(limited, timeout=CLOCK * seconds, **how)
    except subprocess.TimeoutExpired:
        raise Stopped(f"it had not ended after {CLOCK * seconds} seconds by the clock") from None
    if ended.returncode == -signal.SIGXCPU:
        raise Stopped(f"it had not ended after {seconds} seconds of processor time")
    return ended
