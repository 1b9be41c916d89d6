"""The report of a scenario."""
from .converter import PROTECT
from .host import ANY
from .lines import hex_word
from .numbers import millionths
from .packets import length_of, name_of
from .scenario import read_scenario, registers_of
from .world import World, world_fault


def possible_of(world, cell):
    """What is told after `host unknown`: the words that the cell may hold, in version 2 alone."""
    if world.device.setup["version"] == 1:
        return ""
    words = world.host.possible(cell)
    if words is ANY:
        return " possible any"
    return " possible" + "".join(f" {hex_word(word, length_of(cell[1]))}" for word in words)


def standing_of(world, cell):
    word = world.host.standing(cell)
    if word is None:
        return "host unknown" + possible_of(world, cell)
    return f"host confirmed {hex_word(word, length_of(cell[1]))}"


def cell_line(world, name, cell):
    word = hex_word(world.device.cells[cell], length_of(cell[1]))
    return f"{name} {word} {standing_of(world, cell)}"


def report(world):
    device = world.device
    yield f"stopped {world.taken} {world.stop}" if world.stop else f"ran {world.taken}"
    yield cell_line(world, "protect", PROTECT)
    for output in device.outputs:
        num, den = device.commanded(output)
        state = "on" if device.is_on(output) else "off"
        yield f"output {output} {state} commanded {num}/{den} {millionths((num, den))} uV"
        for register in registers_of(device.setup["version"]):
            yield cell_line(world, name_of(register), (output, register))
        yield (f"status {device.status_byte(output):02X} {device.status_word(output):04X}"
               f" {device.status_vout(output):02X}")
    yield f"cml {device.status_cml():02X}"
    yield f"restart seen {'yes' if world.host.restart_seen() else 'no'}"
    yield f"job {world.host.job()}"


def replay(text):
    """Status, standard output and standard error of `pmb replay` on a text."""
    scenario = read_scenario(text)
    if isinstance(scenario, str):
        return 1, "", f"pmb: {scenario}\n"
    setup, passes, events = scenario
    fault = world_fault(setup, passes)
    if fault:
        return 1, "", f"pmb: X7 Setup {fault}\n"
    world = World(setup, passes)
    world.run(events)
    return int(world.stop is not None), "".join(line + "\n" for line in report(world)), ""
