"""What an agent counts, as text that Prometheus reads (its exposition format 0.0.4). No id, argument or label stands in it."""
import bisect
import os
import resource
import time

BUCKETS = 0.001, 0.005, 0.02, 0.1, 0.5, 2, 10  # seconds
STATES = "running", "stopping", "begins", "waiting", "kind missing", "held back", "not placed"
MEMBERS = "open", "draining", "out"
KIND = "text/plain; version=0.0.4; charset=utf-8"
PAGE, TICKS = os.sysconf("SC_PAGE_SIZE"), os.sysconf("SC_CLK_TCK")


class Histogram:
    def __init__(self):
        self.counts, self.sum = [0] * (len(BUCKETS) + 1), 0.0

    def note(self, seconds):
        self.counts[bisect.bisect_left(BUCKETS, seconds)] += 1
        self.sum += seconds

    def rows(self):
        """Of each row the end of its name, its labels and its value."""
        reached = [sum(self.counts[:number + 1]) for number in range(len(self.counts))]
        return [*(("_bucket", {"le": edge}, count) for edge, count in zip([*BUCKETS, "+Inf"], reached)), ("_sum", {}, self.sum), ("_count", {}, reached[-1])]


class Sizes:
    """How long images and the journals behind them are. A file is read again only once it has changed."""

    def __init__(self):
        self.images = {}  # of each path what the file was when it was read, and the length of its image

    def of(self, path):
        """(image, journal), in bytes; None where there is no file."""
        try:
            with open(path, "rb") as file:
                found = os.fstat(file.fileno())
                form = found.st_ino, found.st_mtime_ns, found.st_size
                if self.images.get(path, (None, 0))[0] != form:
                    self.images[path] = form, len(file.readline().rstrip(b"\n"))
                image = self.images[path][1]
                return image, found.st_size - image
        except OSError:
            return None


class Metrics:
    def __init__(self, agent):
        self.agent, self.steps, self.turns, self.sizes, self.began = agent, Histogram(), Histogram(), Sizes(), time.time()
        self.restarts = self.runs = 0

    def ask(self, answer):
        """`answer` takes the lines, once the status was made, which takes no turn for long."""
        self.agent.view.ask(lambda _: answer(self.lines()))

    def lines(self):
        return [line for name, kind, about, rows in self.families() if rows for line in
                [f"# HELP sebrakt_{name} {about}", f"# TYPE sebrakt_{name} {kind}", *(f"sebrakt_{name}{end}{labels_of(labels)} {number(value)}" for end, labels, value in rows)]] + self.of_process()

    def families(self):
        agent, view = self.agent, self.agent.view
        cores, machines = [group.core for group in agent.groups], view.machines
        sizes = [(str(group.number), self.sizes.of(group.image)) for group in agent.groups]
        members = {state: sum(one["member"] == state for one in machines) for state in MEMBERS}
        return [
            ("agent_info", "gauge", "1, with the name of this machine", [("", {"name": agent.name}, 1)]),
            ("members", "gauge", "machines that this agent knows, by what they are", by("state", {**members, "several": len(machines) - sum(members.values())})),
            ("machine_contact_seconds", "gauge", "since a machine was heard last; none where it never was", by("machine", {one["name"]: one["heard"] for one in machines if one["heard"] is not None})),
            ("machine_hindered", "gauge", "1 where something hinders a machine", by("machine", {one["name"]: int(bool(one["hinders"])) for one in machines})),
            ("children", "gauge", "children of the cluster, by their state as this agent knows it", by("state", {state: view.counts[state] for state in STATES})),
            ("losers", "gauge", "entries that another entry of their id or name has the better of", one(len(view.losers))),
            ("own_runs", "gauge", "runs of this machine", one(sum(len(core.runs.here) for core in cores))),
            ("runs_total", "counter", "runs that this machine has begun", one(self.runs)),
            ("restarts_total", "counter", "runs of this machine that ended by themselves, or couldn't be begun", one(self.restarts)),
            ("step_seconds", "histogram", "from a line for the node to its answer", self.steps.rows()),
            ("turn_seconds", "histogram", "turns of the agent's loop", self.turns.rows()),
            ("node_up", "gauge", "1 where a group's node is there", by("group", {str(number): int(core.node.is_there) for number, core in enumerate(cores)})),
            ("node_boot", "gauge", "boot of a group's node", by("group", {str(number): core.node.boot or 0 for number, core in enumerate(cores)})),
            ("image_bytes", "gauge", "a group's image, as it was last written whole", by("group", {number: size[0] for number, size in sizes if size})),
            ("journal_bytes", "gauge", "records behind a group's image", by("group", {number: size[1] for number, size in sizes if size})),
            ("refused_lines_total", "counter", "lines that were refused", by("why", dict(agent.refused))),
            ("holds_total", "counter", "times that this agent didn't listen for long", one(sum(core.holds for core in cores[:1]))),
            ("held_seconds_total", "counter", "for which this agent didn't listen", one(sum(core.held for core in cores[:1]))),
            ("commands_total", "counter", "commands that were given to this agent", one(agent.watch.events.count)),
        ]

    def of_process(self):
        """What Prometheus has of any process, by the names that it gives them. Where no more files can be opened, without what takes one."""
        used = resource.getrusage(resource.RUSAGE_SELF)
        try:
            with open("/proc/self/statm") as file:
                memory = int(file.read().split()[1]) * PAGE
            files = len(os.listdir("/proc/self/fd"))
        except OSError:
            memory = files = None
        return [line for name, kind, about, value in (
            ("process_cpu_seconds_total", "counter", "of the agent", used.ru_utime + used.ru_stime), ("process_resident_memory_bytes", "gauge", "of the agent", memory),
            ("process_open_fds", "gauge", "of the agent", files), ("process_start_time_seconds", "gauge", "since 1970", self.began))
            if value is not None for line in (f"# HELP {name} {about}", f"# TYPE {name} {kind}", f"{name} {number(value)}")]


def one(value):
    return [("", {}, value)]


def by(label, values):
    return [("", {label: name}, value) for name, value in values.items()]


def labels_of(labels):
    told = ",".join(f'{name}="{escaped(str(value))}"' for name, value in labels.items())
    return "{" + told + "}" if told else ""


def escaped(text):
    return text.replace("\\", "\\\\").replace('"', '\\"').replace("\n", "\\n")


def number(value):
    return str(value) if isinstance(value, int) else f"{value:.6g}" if value < 1e6 else f"{value:.1f}"
