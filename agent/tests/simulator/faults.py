"""What the steps of a script do to a world. Each fault ends by itself after the seconds that it is given, or when `heal` ends them all."""
from simulator import machines, script


def pairs_of(words):
    return [tuple(word.split(">")) for word in words]


# -- lines

def cut(world, seconds, *pairs):
    """cut SECONDS A>B.. : lines from A no longer reach B."""
    world.after(float(seconds), world.network.mend, world.network.cut(pairs_of(pairs)))


def degrade(world, table, value, seconds, pairs):
    for pair in pairs_of(pairs):
        table[pair] = float(value)
        world.after(float(seconds), table.pop, pair, None)
    world.network.changes()
    world.after(float(seconds), world.network.changes)


def lose(world, seconds, chance, *pairs):
    """lose SECONDS CHANCE A>B.. : of the lines from A to B this part is lost."""
    degrade(world, world.network.loss, chance, seconds, pairs)


def delay(world, seconds, late, *pairs):
    """delay SECONDS LATE A>B.. : lines from A to B are so late."""
    degrade(world, world.network.slow, late, seconds, pairs)
    world.after(float(seconds) + float(late), world.network.changes)


# -- agents and machines

def names(world, name, *peers):
    """names A B.. : the words of A name these machines alone, and not all."""
    world.machines[name].peers = list(peers)


def begin(world, name):
    world.machines[name].begin_agent()


def kill_agent(world, name, seconds):
    world.machines[name].end_agent()
    world.after(float(seconds), world.machines[name].begin_agent)


def lose_power(world, name, seconds):
    world.machines[name].end_agent(has_power=False)
    world.after(float(seconds), world.machines[name].begin_agent)


def stop_agent(world, name, seconds):
    """SIGTERM; begun again later, whether it has left by then or not."""
    machine = world.machines[name]
    if machine.agent is not None and not machine.is_held:
        machine.agent.take("stop")
    world.after(float(seconds), begin_stopped, machine)


def begin_stopped(machine):
    if not machine.world.is_healed:
        begin_again(machine)


def begin_again(machine):
    machine.end_agent()
    machine.begin_agent()


def upgrade_agent(world, name, seconds):
    world.machines[name].upgrade_agent(float(seconds))


def hold_agent(world, name, seconds):
    world.machines[name].hold(float(seconds))


def hold_machine(world, name, seconds):
    """The whole machine is suspended; its clock goes on."""
    world.machines[name].freeze(float(seconds), clock_stands=False)


def hold_clock(world, name, seconds):
    """The whole machine stands still, and its clock with it."""
    world.machines[name].freeze(float(seconds), clock_stands=True)


def jump_clock(world, name, seconds):
    """Its clock jumps ahead, as that of a machine which was held for so long and whose lines waited."""
    world.machines[name].clock_is_behind -= float(seconds)
    world.network.changes()


# -- nodes and disks

def kill_node(world, name):
    if world.machines[name].agent is not None:
        world.machines[name].agent.kill_node()


def hold_node(world, name, seconds):
    """Its process is stopped, where it has one: a node that stays away is no slow one, and has its children run elsewhere."""
    machine = world.machines[name]
    if machine.agent is not None and machine.agent.node is not None:
        machine.node_held_until = world.now + float(seconds)
        world.network.changes()
        world.after(float(seconds), world.network.changes)


def slow_node(world, name, seconds, each):
    """Each answer takes so long."""
    world.machines[name].node_slow = float(each)
    world.network.changes()
    world.after(float(seconds), quicken, world.machines[name])


def quicken(machine):
    machine.node_slow = 0.0
    machine.world.network.changes()


def fill_disk(world, name, seconds):
    world.machines[name].is_full = True
    world.after(float(seconds), setattr, world.machines[name], "is_full", False)


def copy_image(world, name):
    machine = world.machines[name]
    machine.copy = world.node_of.copy_of(machine.image) if machine.image is not None else None
    machine.copied_ahead = machine.ahead


def swap_image(world, name, seconds, instead):
    """swap-image A SECONDS none | copy: its agent ends, and begins again with no image, or with the one that was copied."""
    machine = world.machines[name]
    machine.end_agent()
    had = own_dots(machine)
    machine.image = None if instead == "none" or machine.copy is None else world.node_of.copy_of(machine.copy)
    machine.ahead = 0 if machine.image is None else machine.copied_ahead
    elsewhere = {dot for other in world.machines.values() if other is not machine for dot in other.state().known}
    machine.losses.append(Loss(world.now, had - own_dots(machine), elsewhere))
    world.note("the image of", name, "is", instead)
    world.after(float(seconds), machine.begin_agent)


def own_dots(machine):
    return {dot for dot in machine.state().known if dot[1] == machine.name}


class Loss:
    """When an image was lost, and which of its machine's own dots with it; which dots stand on the disks of others."""

    def __init__(self, moment, gone, elsewhere):
        self.moment, self.gone, self.elsewhere = moment, gone, elsewhere


# -- a machine that isn't what the others take it for

def twin(world, name, seconds, image):
    """twin A SECONDS none | copy: a second machine takes the name of A, with no image, or with a copy of A's as it is now."""
    of, second = world.machines[name], machines.Machine(world, name, is_twin=True)
    if image == "copy" and of.image is not None:
        second.image, second.ahead = world.node_of.copy_of(of.image), of.ahead
    world.machines[second.key] = second
    second.begin_agent()
    world.after(float(seconds), end_twin, world, second)


def end_twin(world, second):
    if second.key in world.machines:
        world.ran_of_twins = len(world.machines[second.name].processes), len(second.processes)
        second.end_agent()
        del world.machines[second.key]


def estrange(world, name, seconds, attribute):
    """estrange A SECONDS secret | setting: its agent ends, and begins again with another secret, or another way to place and count."""
    machine = world.machines[name]
    machine.end_agent()
    setattr(machine, attribute, "another")
    machine.begin_agent()
    world.network.changes()
    world.after(float(seconds), reconcile, machine)


def reconcile(machine):
    if machine.secret or machine.setting:
        machine.secret = machine.setting = ""
        machine.world.network.changes()
        begin_again(machine)


# -- people and children

def ask(world, name, *words):
    world.command(world.machines[name], " ".join(words))


def kill_child(world, number):
    """Ends one of the processes of children."""
    live = sorted((process for processes in world.live.values() for process in processes), key=lambda process: process.pid)
    if live:
        live[int(number) % len(live)].end(-9)


DO = {"names": names, "begin": begin, "cut": cut, "lose": lose, "delay": delay, "kill-agent": kill_agent, "lose-power": lose_power, "stop-agent": stop_agent,
      "upgrade-agent": upgrade_agent, "hold-agent": hold_agent, "hold-machine": hold_machine, "hold-clock": hold_clock, "jump-clock": jump_clock, "kill-node": kill_node,
      "hold-node": hold_node, "slow-node": slow_node, "fill-disk": fill_disk, "copy-image": copy_image, "swap-image": swap_image, "twin": twin,
      "estrange": estrange, "ask": ask, "kill-child": kill_child}


def do(world, step):
    if step.verb not in script.NO_FAULTS:
        world.note("FAULT", step)
    DO[step.verb](world, *step.words)


# -- all faults end

def heal(world):
    world.note("all faults end")
    world.is_healed = True
    world.network.mend_all()
    for machine in list(world.machines.values()):
        machine.is_full, machine.node_slow, machine.node_held_until = False, 0.0, 0.0
        if machine.is_twin:
            end_twin(world, machine)
            continue
        reconcile(machine)
        machine.go_on(machine.agent)
        if machine.agent is None or machine.agent.core.leave_at is not None:
            begin_again(machine)
    world.after(5, open_all, world)


def open_all(world):
    """People open again what they drained."""
    for machine in world.machines.values():
        rows = machine.state().rows.values()
        if any(table == "member" and name == machine.name and content[1] == "draining" for table, name, content in rows):
            world.command(machine, "leave " + machine.name)
