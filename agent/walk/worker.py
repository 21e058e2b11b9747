"""Does some work each two seconds, and tells it."""
import itertools
import os
import time

for number in itertools.count(1):
    print(os.environ["SEBRAKT_ID"], "on", os.environ["SEBRAKT_NODE"], "has done", number, flush=True)
    time.sleep(2)
