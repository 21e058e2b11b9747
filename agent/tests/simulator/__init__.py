"""A cluster of agents in one process, with virtual time: schedules of faults, and what the agents promise while they are played."""
import os
import sys

TOP = os.path.join(os.path.dirname(os.path.abspath(__file__)), "..", "..", "..")  # the repository
sys.path[:0] = [os.path.join(TOP, "agent"), os.path.join(TOP, "reference")]
