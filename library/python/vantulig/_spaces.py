"""Gymnasium's and PettingZoo's classes where they can be imported; else stand-ins with the same calls, as far as they are
used here."""

import importlib
from typing import Any, Optional, Sequence, Tuple

import numpy


class EnvHere:
    """As gymnasium.Env: what `reset` does with a seed, and the end of a `with`."""

    metadata: Any = {"render_modes": []}
    render_mode: Optional[str] = None
    spec: Any = None
    _np_random: Any = None

    @property
    def np_random(self) -> Any:
        if self._np_random is None:
            self._np_random = numpy.random.default_rng()
        return self._np_random

    @property
    def unwrapped(self) -> Any:
        return self

    def reset(self, *, seed: Optional[int] = None, options: Optional[Any] = None) -> Any:
        if seed is not None:
            self._np_random = numpy.random.default_rng(seed)

    def close(self) -> None:
        pass

    def __enter__(self) -> Any:
        return self

    def __exit__(self, *_: Any) -> None:
        self.close()

class _Space:
    """What the spaces have in common: a shape, a type of numbers, and chance of their own."""

    shape: Tuple[int, ...] = ()
    dtype: Any = None

    def __init__(self, seed: Optional[int] = None) -> None:
        self.np_random = numpy.random.default_rng(seed)

    def seed(self, seed: Optional[int] = None) -> Any:
        self.np_random = numpy.random.default_rng(seed)
        return seed

    def __contains__(self, x: Any) -> bool:
        return bool(self.contains(x))

    def contains(self, x: Any) -> bool:
        raise NotImplementedError

class DiscreteHere(_Space):
    """Whole numbers from 0 to below `n`."""

    def __init__(self, n: int, seed: Optional[int] = None) -> None:
        super().__init__(seed)
        self.n, self.start, self.dtype = n, 0, numpy.dtype(numpy.int64)

    def sample(self, mask: Any = None) -> Any:
        if mask is None:
            return numpy.int64(self.np_random.integers(self.n))
        return numpy.int64(self.np_random.choice(numpy.flatnonzero(mask)))

    def contains(self, x: Any) -> bool:
        return isinstance(x, (int, numpy.integer)) and bool(0 <= x < self.n)

    def __repr__(self) -> str:
        return f"Discrete({self.n})"

    def __eq__(self, other: Any) -> bool:
        return isinstance(other, DiscreteHere) and self.n == other.n

class MultiDiscreteHere(_Space):
    """Several whole numbers, each from 0 to below its own bound."""

    def __init__(self, nvec: Sequence[int], seed: Optional[int] = None) -> None:
        super().__init__(seed)
        self.nvec, self.dtype = numpy.asarray(nvec, numpy.int64), numpy.dtype(numpy.int64)
        self.shape = self.nvec.shape

    def sample(self, mask: Any = None) -> Any:
        if mask is None:
            return (self.np_random.random(self.shape) * self.nvec).astype(numpy.int64)
        return numpy.array([self.np_random.choice(numpy.flatnonzero(one)) for one in mask], numpy.int64)

    def contains(self, x: Any) -> bool:
        whole = isinstance(x, numpy.ndarray) and x.shape == self.shape and x.dtype.kind in "iu"
        return whole and bool(((0 <= x) & (x < self.nvec)).all())

    def __repr__(self) -> str:
        return f"MultiDiscrete({self.nvec})"

    def __eq__(self, other: Any) -> bool:
        return isinstance(other, MultiDiscreteHere) and bool((self.nvec == other.nvec).all())

class BoxHere(_Space):
    """Numbers of one shape between bounds."""

    def __init__(self, low: float, high: float, shape: Tuple[int, ...], dtype: Any = numpy.float32) -> None:
        super().__init__()
        self.low, self.high = numpy.full(shape, low, dtype), numpy.full(shape, high, dtype)
        self.shape, self.dtype = tuple(shape), numpy.dtype(dtype)

    def sample(self, mask: Any = None) -> Any:
        return (self.low + (self.high - self.low) * self.np_random.random(self.shape)).astype(self.dtype)

    def contains(self, x: Any) -> bool:
        return (
            isinstance(x, numpy.ndarray)
            and x.shape == self.shape
            and numpy.can_cast(x.dtype, self.dtype)
            and bool(((self.low <= x) & (x <= self.high)).all())
        )

    def __repr__(self) -> str:
        return f"Box({self.low.min()}, {self.high.max()}, {self.shape}, {self.dtype})"

    def __eq__(self, other: Any) -> bool:
        return isinstance(other, BoxHere) and self.shape == other.shape and bool((self.high == other.high).all())


class ParallelEnvHere:
    """As pettingzoo.ParallelEnv: the names that it promises."""

    metadata: Any = {}
    agents: Any = []
    possible_agents: Any = []

    @property
    def unwrapped(self) -> Any:
        return self

    @property
    def num_agents(self) -> int:
        return len(self.agents)

    @property
    def max_num_agents(self) -> int:
        return len(self.possible_agents)

    def close(self) -> None:
        pass


def _imported(name: str) -> Any:
    try:
        return importlib.import_module(name)
    except ImportError:
        return None


_gymnasium, _spaces, _pettingzoo = map(_imported, ("gymnasium", "gymnasium.spaces", "pettingzoo"))
Env: Any = _gymnasium.Env if _gymnasium else EnvHere
Box: Any = _spaces.Box if _spaces else BoxHere
Discrete: Any = _spaces.Discrete if _spaces else DiscreteHere
MultiDiscrete: Any = _spaces.MultiDiscrete if _spaces else MultiDiscreteHere
ParallelEnv: Any = _pettingzoo.ParallelEnv if _pettingzoo else ParallelEnvHere
