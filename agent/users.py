"""Whom a program runs as, where its kind names a user or a group."""
import grp
import os
import pwd
from typing import NamedTuple

MAY_CHANGE = 0b111 << 5  # the capabilities to end others' processes (also for the kernel, when this one has ended), to become another group and another user


class User(NamedTuple):
    user: int
    group: int
    groups: list
    variables: dict  # that tell a program whom it runs as


def of(user, group):
    """None where neither is named. OSError where there is none such, or this process may not become it."""
    if user is None and group is None:
        return None
    known = None if user is None else entry(pwd.getpwnam, pwd.getpwuid, "user", user)
    own = os.geteuid(), os.getegid()
    number = group_of(group) if group is not None else known.pw_gid
    one = User(own[0] if known is None else known.pw_uid, number, [number], {})
    if known is not None:
        groups = os.getgrouplist(known.pw_name, number)
        one = one._replace(groups=groups, variables={"USER": known.pw_name, "LOGNAME": known.pw_name, "HOME": known.pw_dir, "SHELL": known.pw_shell or "/bin/sh"})
    if one[:2] != own and not may_change():
        raise OSError(0, f"the agent may not begin it as {user or group}: it is not root's, and hasn't CAP_SETUID, CAP_SETGID and CAP_KILL")
    return one if one[:2] != own or os.geteuid() == 0 else None


def group_of(group):
    return entry(grp.getgrnam, grp.getgrgid, "group", group).gr_gid


def entry(by_name, by_number, what, name):
    try:
        return by_number(int(name)) if name.isdecimal() else by_name(name)
    except (KeyError, OverflowError):
        raise OSError(0, f"no {what} {name}") from None


def may_change():
    with open("/proc/self/status") as file:
        return all((int(line.split()[1], 16) & MAY_CHANGE) == MAY_CHANGE for line in file if line.startswith("CapEff:"))
