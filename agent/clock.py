"""The one clock of an agent."""
import time


def seconds():
    """Since the machine began, whether it was asleep or not. It never steps back."""
    return time.clock_gettime(time.CLOCK_BOOTTIME)
