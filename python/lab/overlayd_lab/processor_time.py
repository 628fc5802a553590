"""A module for measures/: the processor time of programs that were run."""

import resource


def processor() -> float:
    """The seconds of processor that this process's programs have taken, those that have ended."""
    used = resource.getrusage(resource.RUSAGE_CHILDREN)
    return used.ru_utime + used.ru_stime
