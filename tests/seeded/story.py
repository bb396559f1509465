"""One seed: a disk, some lives of the program over it, each with its clients and its end, and a last one in which all is done."""
from __future__ import annotations

import os
import shutil
import subprocess
from dataclasses import dataclass
from random import Random

from clients import Caller, Client, Collector, Operator, Runtime, Scene, Stopper
from machine import MILLIS, NEVER, SECONDS, STEPS, Ask, Machine, Told, live
from rules import LATE, Broken, Rules, Settings, hold

# The time at which each story begins, and how long its last life may take where no clock was set back.
BEGIN = 1_573_755_365 * SECONDS
LAST = 900 * SECONDS

PORT, ADMIN = 8000, 8020

# What the disks are formatted with: retries, age, timeout, events, environments, and sectors beside the fewest.
KINDS = [
    (Settings(0, 21600, 3, 16, 1), 0), (Settings(2, 21600, 3, 16, 2), 40), (Settings(1, 21600, 1, 4, 1), 4),
    (Settings(2, 60, 1, 8, 2), 9), (Settings(1, 300, 2, 2, 3), 200), (Settings(0, 60, 10, 6, 2), 25),
]
BYTES = 128


@dataclass
class Plan:
    """How a life ends, and what happens to the disk and the clock until then."""

    how: str
    at: int
    steps: list[tuple[int, int]]
    slow_from: int
    slow_to: int
    quiet_at: int = NEVER


def sectors_of(settings: Settings) -> int:
    """The fewest sectors of a disk with these settings."""
    return 2 * (2 + -(-(25 + settings.events * (78 + 2 * BYTES)) // 512) + 3)


def make_disks(program: str, folder: str) -> None:
    """Formats a disk of each kind."""
    for number, (settings, more) in enumerate(KINDS):
        disk = os.path.join(folder, f"kind.{number}")
        if os.path.exists(disk):
            continue
        words = {
            "sectors": sectors_of(settings) + more, "name": "f", "handler": "h", "arn": "arn:aws:lambda:us-east-2:123456789012:function:f",
            "payload": BYTES, "response": BYTES, "retries": settings.retries, "age": settings.age, "timeout": settings.timeout,
            "events": settings.events, "environments": settings.environments,
        }
        options = [text for name, value in words.items() for text in (f"--{name}", str(value))]
        subprocess.run([program, "format", f"{disk}.new", *options], check=True, stdout=subprocess.DEVNULL)
        os.rename(f"{disk}.new", disk)


class World:
    """What is outside the program in one life."""

    def __init__(self, scene: Scene, clients: list[Client], stopper: Stopper, plan: Plan) -> None:
        self.scene, self.clients, self.stopper, self.plan = scene, clients, stopper, plan
        self.has_acted = self.is_slow = False
        self.acted_at = 0

    def turn(self, ask: Ask) -> Told:
        scene = self.scene
        scene.now = scene.rules.moment = ask.now
        scene.rules.latest = max(scene.rules.latest, scene.clock)
        scene.is_quiet = scene.now >= self.plan.quiet_at
        is_over = self.has_acted and scene.now >= max(self.acted_at, scene.held_up) + 3 * LATE
        hold(not is_over, "the program was told to end, and goes on")
        hold(ask.steps < STEPS, "the program goes round in a circle")
        for client in scene.draws.sample(self.clients, len(self.clients)):
            client.turn()
        told = self.say()
        told.next = max(told.next, ask.now + 1)
        return told

    def say(self) -> Told:
        """What happens beside the clients."""
        scene, plan = self.scene, self.plan
        if plan.steps and plan.steps[0][0] <= scene.now:
            _, step = plan.steps.pop(0)
            scene.note(f"the clock is set by {step} ms")
            scene.ahead += step
            scene.set_back += max(0, -step) * MILLIS
            scene.rules.was_set = True
            return Told(self.next(), step=step)
        if not self.has_acted and scene.now >= plan.at:
            return self.end()
        if plan.slow_from <= scene.now < plan.slow_to and not self.is_slow:
            self.is_slow = True
            scene.held_up, scene.rules.was_slow = plan.slow_to, True
            return Told(self.next(), act="slow_flushes", number=scene.draws.randrange(7 * SECONDS))
        if self.is_slow and scene.now >= plan.slow_to:
            self.is_slow, plan.slow_from = False, NEVER
            scene.held_up = scene.now + 20 * SECONDS
            return Told(self.next(), act="slow_flushes")
        return Told(self.next())

    def end(self) -> Told:
        """The life comes to its end."""
        scene, plan = self.scene, self.plan
        how = plan.how
        if scene.is_quiet and not self.is_done() and scene.now < plan.at + LAST + scene.set_back:
            return Told(min(self.next(), scene.now + SECONDS))
        self.has_acted, self.acted_at = True, scene.now
        scene.note(f"the end comes by {how}")
        if how == "stop":
            if scene.is_quiet:
                scene.rules.all_is_done()
                hold(self.have_called(), "a caller was not served")
            self.stopper.wake = scene.now
            return Told(scene.now + 1)
        if how.startswith("fail"):
            scene.rules.is_faulty = True
            self.has_acted, plan.how, plan.at = False, "kill", scene.now + 30 * SECONDS
            return Told(self.next(), act=how, number=scene.draws.choice([1, NEVER]))
        return Told(act=how)

    def have_called(self) -> bool:
        """Whether each caller has made all its calls."""
        return all(client.left == 0 and not client.is_waiting for client in self.clients if isinstance(client, Caller))

    def is_done(self) -> bool:
        """Whether nothing is left to do that was promised."""
        return self.have_called() and all(event.is_done for event in self.scene.rules.events.values())

    def next(self) -> int:
        """When somebody wants a turn."""
        plan, scene = self.plan, self.scene
        times = [client.next_wake() for client in self.clients]
        times += [at for at, _ in plan.steps[:1]]
        times.append(max(self.acted_at, scene.held_up) + 3 * LATE if self.has_acted else plan.at)
        times.append(plan.slow_to if self.is_slow else plan.slow_from)
        return min((time for time in times if time > scene.now), default=NEVER)


class Story:
    """All that happens by one seed."""

    def __init__(self, machine: Machine, folder: str, seed: int) -> None:
        self.machine, self.folder, self.seed = machine, folder, seed
        self.draws = Random(seed)
        self.disk = os.path.join(folder, "disk")
        kind = self.draws.randrange(len(KINDS))
        self.settings = KINDS[kind][0]
        shutil.copyfile(os.path.join(os.path.dirname(folder), f"kind.{kind}"), self.disk)
        self.scene = Scene(self.draws, Rules(self.settings), folder, PORT)
        self.scene.now = BEGIN
        self.is_wild = self.draws.randrange(3) != 0
        self.threads = self.draws.randrange(1, 4)

    def plan(self) -> Plan:
        """What happens in the next life but the last."""
        draws, now = self.draws, self.scene.now
        length = draws.choice([1, 5, 20, 20, 100, 200]) * SECONDS
        how = draws.choice(["kill", "lose_power", "lose_power", "fail_flushes", "fail_writes", "fail_reads", "stop"])
        steps = []
        if draws.randrange(6) == 0:
            steps = [(now + draws.randrange(length), draws.choice([-1, 1]) * draws.choice([5, 2000, 100_000, 4_000_000]))]
        slow_from = now + draws.randrange(length) if draws.randrange(5) == 0 else NEVER
        return Plan(how, now + draws.randrange(length) + 300 * MILLIS, steps, slow_from, slow_from + draws.randrange(20 * SECONDS))

    def clients(self, stopper: Stopper) -> list[Client]:
        """Who is there in a life."""
        draws, scene, life = self.draws, self.scene, self.scene.rules.life
        found: list[Client] = [stopper]
        found += [Caller(scene, f"c{life}{n}", PORT, draws.randrange(1, 9)) for n in range(draws.randrange(1, 5))]
        for n in range(1, self.settings.environments + 1):
            found.append(Runtime(scene, f"r{life}{n}", PORT + n, n))
        found.append(Collector(scene, f"k{life}", PORT))
        if draws.randrange(2) == 0:
            found.append(Operator(scene, f"o{life}", ADMIN))
        if not self.is_wild:
            for client in found:
                client.stays = True
        return found

    def life(self, plan: Plan) -> None:
        """One life of the program."""
        scene = self.scene
        stopper = Stopper(scene, "stopper", PORT)
        world = World(scene, self.clients(stopper), stopper, plan)
        words = ["serve", self.disk, "--port", str(PORT), "--threads", str(self.threads), "--admin", str(ADMIN)]
        seed = self.draws.randrange(1 << 62)
        life = live(self.machine, seed, self.folder, self.disk, scene.now, scene.ahead, words, world)
        scene.now = life.now
        scene.note(f"the program ended with {life.status} after {life.steps} steps: {life.said.strip().splitlines()[-1:]}")
        for client in world.clients:
            client.life_ended(world.acted_at - SECONDS if life.status == 0 else 0)
        wanted = 3 if scene.rules.is_faulty and life.status != 99 else 0 if plan.how == "stop" else 99
        hold(life.status == wanted, f"the program ended with {life.status} by {plan.how}: {life.said.strip()[-500:]}")
        scene.now += SECONDS

    def tell(self) -> None:
        """The whole story; `Broken` where a rule is."""
        for _ in range(self.draws.randrange(3)):
            self.life(self.plan())
            self.scene.rules.new_life()
        quiet_at = self.scene.now + self.draws.choice([0, 1, 5, 20]) * SECONDS
        self.life(Plan("stop", quiet_at + SECONDS, [], NEVER, NEVER, quiet_at))


def run_seed(machine: Machine, folder: str, seed: int) -> tuple[str, list[str]]:
    """Why a seed broke a rule, or nothing, and what happened."""
    os.makedirs(folder, exist_ok=True)
    story = Story(machine, folder, seed)
    try:
        story.tell()
        return "", story.scene.trace
    except Broken as why:
        return str(why), story.scene.trace
    except (OSError, subprocess.TimeoutExpired) as why:
        return f"the machine stood still: {why!r}", story.scene.trace
