"""A program that forks a worker and writes over its environment, as those do that change their title: titled.py FILE, which tells the worker."""
import ctypes
import os
import sys
import time


def write_over_environment():
    with open("/proc/self/stat") as file:
        words = file.read().rsplit(")", 1)[1].split()
    begin, end = int(words[47]), int(words[48])  # env_start and env_end, the 50th and the 51st of all words
    ctypes.memset(begin, 0, end - begin)


write_over_environment()
worker = os.fork()
if worker:
    with open(sys.argv[1] + ".new", "w") as file:
        file.write(f"{worker}\n")
    os.rename(sys.argv[1] + ".new", sys.argv[1])
time.sleep(1000)
