#!/usr/bin/env python3
"""learn.py SITE [LOG]: learns when to change the stage of a site with two stages, by the cross-entropy method, and never
breaks a rule on the way, since each decision goes through the guard. SITE is a folder with junction.pua, times.csv and
intergreens.csv; the last policy's hour is written into LOG. Half a minute on one processor.

A policy has four numbers: it changes the stage where they, times the queues of the active stage and of the other one, the
seconds that the stage has been shown, and 1, add up to more than 0. Of twelve policies the best four say where the next
twelve are looked for."""
import sys
from pathlib import Path

import numpy

from vantulig.environment import JunctionEnv
from vantulig.traffic import Arrivals

ROUNDS, POLICIES, BEST, SECONDS = 6, 12, 4, 600


def environment(site, seconds, log=None):
    texts = [Path(site, name) for name in ("junction.pua", "times.csv", "intergreens.csv")]
    return JunctionEnv(*texts, traffic=Arrivals(0.12), seconds=seconds, log=log)


def members_of(env):
    """Of each stage whether it has each group, as the guard shows it after a minute in which the stage was wished."""
    members = []
    for stage in (1, 2):
        env.reset(seed=0)
        for _ in range(60):
            record = env.step(stage)[4]["record"]
        members.append(numpy.array([letter == "G" for letter in record.aspects]))
    return members


def waited(env, members, policy, seed):
    """The mean number of vehicles that waited in an episode of a policy."""
    seen, _ = env.reset(seed=seed)
    place, queues = env.layout["stage"], env.layout["queues"]
    stage, since, total, cut = 1, 0, 0.0, False
    while not cut:
        active = 2 if seen[place][2] else 1 if seen[place][1] else 0
        since = since + 1 if active == stage else 0
        stage = active or stage
        here, there = (seen[queues] @ members[which] for which in (stage - 1, 2 - stage))
        wants = policy @ numpy.array([here, there, since / 60, 1.0]) > 0
        seen, reward, _, cut, _ = env.step(3 - stage if active and wants else 0)
        total -= reward
    return total / env.seconds


def learned(env, members, say=print):
    chance = numpy.random.default_rng(1)
    mean, spread = numpy.zeros(4), numpy.ones(4)
    for number in range(1, ROUNDS + 1):
        policies = mean + spread * chance.standard_normal((POLICIES, 4))
        costs = numpy.array([waited(env, members, policy, number) for policy in policies])
        best = policies[costs.argsort()[:BEST]]
        mean, spread = best.mean(axis=0), best.std(axis=0) + 0.05
        say(f"round {number}: {costs.min():.1f} to {costs.max():.1f} vehicles wait")
    return mean


def main(site, log=None):
    env = environment(site, SECONDS)
    members = members_of(env)
    policy = learned(env, members)
    before = waited(env, members, numpy.array([0, 0, 1, -0.5]), 99)      # a change each half minute
    print(f"a change each half minute: {before:.1f} vehicles wait; learned: {waited(env, members, policy, 99):.1f}")
    env.close()
    if log:
        with open(log, "w", encoding="ascii", newline="\n") as file:
            hour = environment(site, 3600, file)
            waited(hour, members, policy, 100)
            hour.close()
    return 0


if __name__ == "__main__":
    sys.exit(main(*sys.argv[1:]))
