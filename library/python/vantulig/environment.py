"""An environment for learners: a junction under the guard, in the manner of Gymnasium; several of them in PettingZoo's
parallel form.

    env = JunctionEnv(plan, times, intergreens, actions="stages")       # or actions="groups"
    seen, info = env.reset(seed=1)
    seen, reward, ended, cut, info = env.step(env.action_space.sample(info["mask"]))

Whatever is chosen, the guard shows nothing that breaks a rule. Where Gymnasium and PettingZoo are installed their classes are
used.

Actions. "stages": 0 goes on, s wishes stage s. "groups": for each group 0 red or 1 green, and no stage counts. `info["mask"]`
says which of them the guard would obey in the second that comes, each as if it were the only turn that is wished, as `sample`
takes it.

Observations. One array of numbers from 0 to 1, whose parts `layout` tells by name, each a slice: `aspects` (of each group
four numbers, of which that of R, U, G or A is 1), `ages` (seconds since its aspect, 60 and more are 1), `queues` (of each
group, 20 and more are 1), `turns` (whether its turn would be obeyed), `waits` (after how many seconds by nature, 60 and more,
and never, are 1), `stage` (the place: 1 at 0 for an interstage, at s for stage s).

Reward. The vehicles that wait in this second, with a minus. An episode is cut after `seconds`; it doesn't end."""

from typing import Any, Dict, List, Mapping, Optional, Sequence, TextIO, Tuple

import numpy

from ._given import TextLike
from ._guarded import Guarded
from ._many import Many
from ._records import Record
from ._spaces import Box, Discrete, Env, MultiDiscrete, ParallelEnv
from .traffic import Arrivals, Traffic

_LETTERS = numpy.frombuffer(b"RUGA", numpy.uint8)
_COLOURS = numpy.array([(204, 0, 0), (255, 140, 0), (0, 150, 0), (255, 208, 0)], numpy.uint8)

SHOWN = 120


class Seen:
    """What a learner sees of a junction: its parts, and how they stand in the array."""

    def __init__(self, groups: int, stages: int):
        self.groups, self.stages = groups, stages
        self.layout: Dict[str, slice] = {}
        size = 0
        parts = {"aspects": 4 * groups, "ages": groups, "queues": groups, "turns": groups, "waits": groups, "stage": stages + 1}
        for name, width in parts.items():
            self.layout[name] = slice(size, size + width)
            size += width
        self.size = size
        self.space = Box(0.0, 1.0, (size,), numpy.float32)
        self.restart()

    def restart(self) -> None:
        self.shown = numpy.zeros(self.groups, numpy.uint8)
        self.ages = numpy.zeros(self.groups, numpy.int64)
        self.history: List[Any] = []

    def show(self, aspects: Any) -> None:
        """Takes the letters of a second."""
        self.ages = numpy.where(aspects == self.shown, self.ages + 1, 1)
        self.shown = aspects
        self.history.append(aspects)
        del self.history[:-SHOWN]

    def array(self, mask: Any, queues: Any) -> Any:
        """The array, of the mask in plain numbers and of the queues."""
        seen, n = numpy.zeros(self.size, numpy.float32), self.groups
        seen[self.layout["aspects"]] = (self.shown[:, None] == _LETTERS).ravel()
        seen[self.layout["ages"]] = numpy.minimum(self.ages / 60, 1)
        seen[self.layout["queues"]] = numpy.minimum(queues / 20, 1)
        seen[self.layout["turns"]] = mask["rules"][:n] == 0
        seen[self.layout["waits"]] = numpy.minimum(mask["waits"][:n] / 60, 1)
        seen[self.layout["stage"].start + (int(mask["to"]) if mask["place"] == 1 else 0)] = 1
        return seen

    def picture(self) -> Any:
        """The diagram of the last two minutes: a row a group, a column a second."""
        picture = numpy.full((10 * self.groups, 4 * SHOWN, 3), 255, numpy.uint8)
        if self.history:
            letters = numpy.array(self.history).T
            which = (letters[:, :, None] == _LETTERS).argmax(axis=2)
            bars = _COLOURS[which].repeat(4, axis=1)
            for g in range(self.groups):
                picture[10 * g + 1 : 10 * g + 9, : bars.shape[1]] = bars[g]
        return picture

    def text(self, names: Sequence[str]) -> str:
        """The same as lines of letters."""
        width = max(map(len, names), default=0)
        rows = numpy.array(self.history, numpy.uint8).reshape(-1, self.groups).T
        return "".join(f"{name:{width}} {bytes(row).decode()}\n" for name, row in zip(names, rows))


def action_space(actions: str, groups: int, stages: int) -> Any:
    """The space of "stages" or "groups"."""
    if actions == "stages":
        return Discrete(stages + 1)
    if actions == "groups":
        return MultiDiscrete([2] * groups)
    raise ValueError(f"actions are 'stages' or 'groups', and not {actions!r}")


def action_mask(actions: str, mask: Any, groups: int, stages: int) -> Any:
    """Which actions would be obeyed, of the mask in plain numbers: an array for stages, a tuple of one a group for groups."""
    if actions == "stages":
        allowed = numpy.ones(stages + 1, numpy.int8)
        allowed[1:] = mask["stage_rules"][:stages] == 0
        return allowed
    free, turns = mask["rules"][:groups] == 0, mask["turns"][:groups]
    both = numpy.stack([(turns == 1) | free, (turns == 2) | free], 1).astype(numpy.int8)
    return tuple(both)


class JunctionEnv(Env):  # type: ignore[misc]
    """One junction. `traffic` brings vehicles (`Arrivals`, or `vantulig.traffic.Sumo`), `seconds` is the length of an
    episode, and into `log` each episode is written, as the programs read it. `render_mode` is "ansi" (lines of letters) or
    "rgb_array" (the diagram of the last two minutes)."""

    metadata: Dict[str, Any] = {"render_modes": ["ansi", "rgb_array"], "render_fps": 1}

    def __init__(
        self,
        plan: TextLike,
        times: TextLike,
        intergreens: TextLike,
        *,
        actions: str = "stages",
        traffic: Optional[Traffic] = None,
        seconds: int = 3600,
        log: Optional[TextIO] = None,
        render_mode: Optional[str] = None,
    ):
        if render_mode is not None and render_mode not in self.metadata["render_modes"]:
            raise ValueError(f"render_mode is one of {self.metadata['render_modes']} or None, and not {render_mode!r}")
        self.guarded = Guarded.of(plan, times, intergreens, keep=False)
        self.names, self.stages = self.guarded.names, self.guarded.stages
        self.actions, self.seconds, self.log, self.render_mode = actions, seconds, log, render_mode
        self.traffic = traffic if traffic is not None else Arrivals()
        self._seen = Seen(len(self.names), self.stages)
        self.layout = self._seen.layout
        self.observation_space = self._seen.space
        self.action_space = action_space(actions, len(self.names), self.stages)
        self._begun = False

    def reset(self, *, seed: Optional[int] = None, options: Optional[Dict[str, Any]] = None) -> Tuple[Any, Dict[str, Any]]:
        """Begins an episode before its first second. The same seed gives the same traffic."""
        super().reset(seed=seed)
        self.guarded.restart()
        self._seen.restart()
        self.traffic.begin(self.names, self.np_random)
        self._begun = True
        if self.log is not None:
            self.log.write(self.guarded.header())
        seen, mask = self._look()
        return seen, {"mask": mask}

    def _look(self) -> Tuple[Any, Any]:
        mask = self.guarded.mask_array()
        allowed = action_mask(self.actions, mask, len(self.names), self.stages)
        return self._seen.array(mask, self.traffic.queues()), allowed

    def _decide(self, action: Any) -> Record:
        counts = self.traffic.counts()
        if self.actions == "stages":
            return self.guarded.decide(counts, stage=int(action))
        return self.guarded.wish("".join("RG"[int(one)] for one in action), counts)

    def step(self, action: Any) -> Tuple[Any, float, bool, bool, Dict[str, Any]]:
        """Makes a second: what is seen, the reward, whether the episode ended (never) or was cut, and in `info` the `record`
        of the second, what it `refused` (how much), and the `mask` of the next action."""
        if not self._begun:
            raise RuntimeError("reset comes before the first step")
        record = self._decide(action)
        self._seen.show(numpy.frombuffer(record.aspects.encode("ascii"), numpy.uint8))
        self.traffic.step(record.aspects)
        if self.log is not None:
            self.log.write(record.line())
        seen, mask = self._look()
        info = {"mask": mask, "record": record, "refused": len(record.stages) + len(record.turns)}
        return seen, -float(self.traffic.waiting()), False, record.second >= self.seconds, info

    def render(self) -> Any:
        """The diagram of the last two minutes."""
        if self.render_mode == "ansi":
            return self._seen.text(self.names)
        return self._seen.picture() if self.render_mode == "rgb_array" else None

    def close(self) -> None:
        """Frees the junction and the traffic."""
        self.guarded.end()
        self.traffic.end()
        self._begun = False


class JunctionsEnv(ParallelEnv):  # type: ignore[misc]
    """Several junctions, in PettingZoo's parallel form; the agents are named by the caller. `sites` has for each agent its
    plan, times and intergreens; `traffic` for each what brings its vehicles, `Arrivals` where it isn't told. All make a
    second in one call."""

    metadata: Dict[str, Any] = {"render_modes": ["ansi", "rgb_array"], "render_fps": 1, "name": "junctions_v0"}

    def __init__(
        self,
        sites: Mapping[str, Tuple[TextLike, TextLike, TextLike]],
        *,
        actions: str = "stages",
        traffic: Optional[Mapping[str, Traffic]] = None,
        seconds: int = 3600,
        render_mode: Optional[str] = None,
    ):
        if render_mode is not None and render_mode not in self.metadata["render_modes"]:
            raise ValueError(f"render_mode is one of {self.metadata['render_modes']} or None, and not {render_mode!r}")
        self.possible_agents: List[str] = list(sites)
        self.agents: List[str] = []
        self.actions, self.seconds, self.render_mode = actions, seconds, render_mode
        self.junctions = {agent: Guarded.of(*texts, keep=False) for agent, texts in sites.items()}
        self.traffic = {agent: (traffic or {}).get(agent) or Arrivals() for agent in sites}
        self._seen = {agent: Seen(len(one.names), one.stages) for agent, one in self.junctions.items()}
        self._spaces = {agent: action_space(actions, len(one.names), one.stages) for agent, one in self.junctions.items()}
        self.observation_spaces = {agent: seen.space for agent, seen in self._seen.items()}
        self.action_spaces = dict(self._spaces)
        self.many = Many(self.junctions.values())
        self._random = numpy.random.default_rng()

    def observation_space(self, agent: str) -> Any:
        return self._seen[agent].space

    def action_space(self, agent: str) -> Any:
        return self._spaces[agent]

    def reset(
        self, seed: Optional[int] = None, options: Optional[Dict[str, Any]] = None
    ) -> Tuple[Dict[str, Any], Dict[str, Any]]:
        """Begins an episode of all. The same seed gives the same traffic."""
        if seed is not None:
            self._random = numpy.random.default_rng(seed)
        self.agents = list(self.possible_agents)
        for agent, one in self.junctions.items():
            one.restart()
            self._seen[agent].restart()
            self.traffic[agent].begin(one.names, self._random)
        self.many.refresh()
        seen, masks = self._look()
        return seen, {agent: {"mask": masks[agent]} for agent in self.agents}

    def _look(self) -> Tuple[Dict[str, Any], Dict[str, Any]]:
        seen, masks = {}, {}
        for at, (agent, one) in enumerate(self.junctions.items()):
            mask = self.many.masks[at]
            seen[agent] = self._seen[agent].array(mask, self.traffic[agent].queues())
            masks[agent] = action_mask(self.actions, mask, len(one.names), one.stages)
        return seen, masks

    def _decide(self, actions: Mapping[str, Any]) -> None:
        counts = numpy.zeros((len(self.many), 2, 64), numpy.uint32)
        stages = numpy.zeros(len(self.many), numpy.int64)
        groups = numpy.zeros((len(self.many), 64), numpy.int64)
        for at, agent in enumerate(self.junctions):
            for detector, pair in self.traffic[agent].counts().items():
                counts[at, :, detector - 1] = pair
            if self.actions == "stages":
                stages[at] = actions[agent]
            else:
                action = numpy.asarray(actions[agent])
                groups[at, : len(action)] = numpy.where(action == 1, 1, 2)
        self.many.decide(counts, stages=stages, groups=groups)

    def step(self, actions: Mapping[str, Any]) -> Tuple[Dict[str, Any], ...]:
        """Makes a second of all: what each sees, its reward, whether it ended (never), whether it was cut, and its `info`."""
        if not self.agents:
            raise RuntimeError("reset comes before the first step, and after the last one")
        self._decide(actions)
        rewards: Dict[str, float] = {}
        for at, (agent, one) in enumerate(self.junctions.items()):
            aspects = self.many.told["aspects"][at, : len(one.names)].copy()
            self._seen[agent].show(aspects)
            self.traffic[agent].step(bytes(aspects).decode("ascii"))
            rewards[agent] = -float(self.traffic[agent].waiting())
        seen, masks = self._look()
        is_cut = int(self.many.told["second"][0]) >= self.seconds
        refused = self.many.told["stages"] + self.many.told["turns"]
        infos = {agent: {"mask": masks[agent], "refused": int(refused[at])} for at, agent in enumerate(self.agents)}
        ended = {agent: False for agent in self.agents}
        cut = {agent: is_cut for agent in self.agents}
        if is_cut:
            self.agents = []
        return seen, rewards, ended, cut, infos

    def render(self) -> Any:
        """The diagrams of all by agent."""
        if self.render_mode == "ansi":
            return {agent: self._seen[agent].text(one.names) for agent, one in self.junctions.items()}
        if self.render_mode == "rgb_array":
            return {agent: self._seen[agent].picture() for agent in self.junctions}
        return None

    def close(self) -> None:
        """Frees all junctions."""
        for agent, one in self.junctions.items():
            one.end()
            self.traffic[agent].end()
        self.agents = []


__all__ = ["JunctionEnv", "JunctionsEnv", "Seen", "action_mask", "action_space"]
