"""A map of some hundred steps on each command, held to an own reckoning of its history, and one answer to another: a
slice with the packet behind it gives the finer slice."""
import pathlib

from model import STEPS, Model

PAIRS = [(399, 0), (399, 250), (399, 398), (250, 100), (100, 17), (17, 17), (1, 0)]


def of_steps(tests):
    for name, ratio in [("level", 0), ("removing", 16)]:
        model = Model(ratio)
        path = f"steps_{name}"
        pathlib.Path(path).write_bytes(model.listing())
        tests.same(f"check of {path}", tests.text("check", path), model.check_text())
        slices = {step: tests.text("slice", path, step) for step in {*STEPS, *sum(PAIRS, ())}}
        for step in STEPS:
            tests.same(f"borders of {path} after {step}", tests.text("borders", path, step), model.borders_text(step))
            tests.tell(f"slice of {path} after {step}", model.faults_of_slice(step, slices[step]))
        too_high = f"step too high {len(model.steps)}\n".encode()
        for words in (["borders", path, 400], ["slice", path, 400], ["packet", path, 400, 0]):
            ended = tests.run(*words)
            tests.same(f"{words} beyond the last step", (ended.returncode, ended.stdout), (5, too_high))
        for first, last in PAIRS:
            packet = tests.text("packet", path, first, last)
            tests.same(f"the steps of packet {first} to {last} of {path}", steps_of(packet), model.steps[last:first][::-1])
            pathlib.Path("coarse").write_bytes(slices[first])
            pathlib.Path("packet").write_bytes(packet)
            tests.same(f"replay from {first} to {last} of {path}", tests.text("replay", "coarse", "packet"), slices[last])


def steps_of(packet):
    """The losers and winners of a packet with their classes, in its order."""
    return [tuple(map(int, line.split()[2:6])) for line in packet.decode().splitlines() if line.startswith("step ")]
