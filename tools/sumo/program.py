"""The programs of a site: on demand, and coordinated by the network's own cycle and offsets, both of the same parts."""
from sumo.plan import holds_of, interstage_of, pairs_of, reach_of
from sumo.service import bases_of, walks_of


def arrays_of(lists, first, behind, names):
    """An array of all elements one after the other, and of each list its first place and the one behind its last."""
    elements, begins = [], [1]
    for one in lists:
        elements += [element + 1 for element in one]
        begins.append(len(elements) + 1)
    return {first: begins[:-1], behind: begins[1:], names: elements or [1]}


LOOK = """/* Of stage `at`: whether somebody asks for it, whether all its lanes have a gap{gone_told}{pushed_told}. */
SUBROUTINE look;
  is_asked := 0;
  has_gap := 1;
{gone_begin}{pushed_begin}  k := first[at];
next_lane:
  IF k < behind[at] THEN
    IF Detection(lane[k]) = 1 OR Occupancy(lane[k]) > 0 THEN
      is_asked := 1
    END;
    IF Headway(lane[k]) <= gap OR Occupancy(lane[k]) > 0 THEN
      has_gap := 0
    END;
{gone}    k := k + 1;
    GOTO next_lane
  END;
{pushes}PROG_ENDE: .
"""

GONE = "    gone := gone + Rear_ends(lane[k]);\n"

PUSHES = """  k := pushed[at];
next_push:
  IF k < over[at] THEN
    IF Front_ends(push[k]) > 0 THEN
      is_asked := 1;
      is_pushed := 1
    END;
    k := k + 1;
    GOTO next_push
  END;
"""

ANSWER = """/* The people who pushed for stage `at` have their green: their pushes are answered. */
SUBROUTINE answer;
  k := pushed[at];
next_push:
  IF k < over[at] THEN
    Clear_front_ends(push[k]);
    k := k + 1;
    GOTO next_push
  END;
PROG_ENDE: .
"""

SETTLE = """/* Whether all groups of the stage have been green for their minimum{cleared_told}. */
SUBROUTINE settle;
  is_settled := 1;
  k := begin[stage];
next_group:
  IF k < end_of[stage] THEN
    IF T_green(group[k]) < least[group[k]] THEN
      is_settled := 0
    END;
    k := k + 1;
    GOTO next_group
  END;
{cleared}PROG_ENDE: .
"""

CLEARED = """  k := foot[stage];
next_foot:
  IF k < past[stage] THEN
    IF T_red(walker[k]) < hold[walker[k]] THEN
      is_settled := 0
    END;
    k := k + 1;
    GOTO next_foot
  END;
"""

FIND = """{clock}IF Any_interstage_active THEN
  GOTO PROG_ENDE
END;
stage := 1;
find:
IF NOT Stage_active(stage) THEN
  stage := stage + 1;
  GOTO find
END;
GOSUB settle;
at := stage;
{base}IF at <> was THEN
  was := at;
{arrive}  lasted := 0
END;
lasted := lasted + 1;
{walk}GOSUB look;
"""

BASE = """IF stage > stages THEN
  at := base[stage - stages]
END;
"""

WALK = """{always}IF stage > stages THEN
  GOSUB answer;
  IF is_settled THEN
    Interstage(stage, at)
  END;
  GOTO PROG_ENDE
END;
"""

ALONE = """IF walk[at] = 0 THEN
  GOSUB answer
END;
"""

ON_DEMAND = """{own_push}is_due := 0;
IF has_gap OR lasted >= most[stage] THEN
  is_due := 1
END;
{stand}IF lasted < briefest OR NOT is_settled OR NOT is_due THEN
  GOTO PROG_ENDE
END;
{start}again:
at := at + 1;
{step}IF at > stages THEN
  at := 1
END;
IF at = stage THEN
{stay}  GOTO PROG_ENDE
END;
GOSUB look;
IF NOT is_asked THEN
  GOTO again
END;
{shorten}{to_walk}Interstage(stage, at);
PROG_ENDE: .
"""

STAND = """IF gone <> gone_before OR lasted = 1 THEN
  gone_before := gone;
  stood := 0
END;
stood := stood + 1;
IF stood > stuck THEN
  is_due := 1
END;
"""

COORDINATED = """{own_push}is_due := 0;
IF left <= 0 OR stage <> main_stage AND has_gap THEN
  is_due := 1
END;
IF lasted < briefest OR NOT is_settled OR NOT is_due THEN
  GOTO PROG_ENDE
END;
GOSUB remain;
until_main := remains;
IF stage = main_stage THEN
  until_main := cycle + left
END;
again:
at := at + 1;
IF at > stages THEN
  at := 1
END;
IF at = stage THEN
{stay}  GOTO PROG_ENDE
END;
IF at <> main_stage THEN
  GOSUB look;
  aim := at;
  GOSUB remain;
  IF NOT is_asked OR remains < need[at] OR remains > until_main THEN
    GOTO again
  END
END;
{main_look}{to_walk}Interstage(stage, at);
PROG_ENDE: .
"""

REMAIN = """/* The seconds until the green of stage `aim` ends in the cycle. */
SUBROUTINE remain;
  remains := off[aim] - clock;
  IF remains < 0 THEN
    remains := remains + cycle
  END;
PROG_ENDE: .
"""

CLOCK = """aim := main_stage;
IF is_begun THEN
  clock := clock + 1
ELSE
  clock := shift;
  is_begun := 1
END;
IF clock >= cycle THEN
  clock := clock - cycle
END;
left := left - 1;
"""

ARRIVE = """  aim := at;
  GOSUB remain;
  left := remains;
  aim := main_stage;
"""

SHORTEN = """/* There is no interstage to a stage that lies further on: the way leads over the last one that there is. */
IF steps > reach THEN
  at := stage + reach;
  IF at > stages THEN
    at := at - stages
  END
END;
"""

TO_WALK = """IF is_pushed AND walk[at] > 0 THEN
  at := walk[at]
END;
"""

STAY = """  IF own_push AND walk[stage] > 0 THEN
    Interstage(stage, walk[stage])
  END;
"""

TOLD = """/* Made by tools/site_from_sumo.py. Stage s has the groups group[begin[s]] to group[end_of[s] - 1], and serves
   the detectors lane[first[s]] to lane[behind[s] - 1].{pushes_told}
"""

ON_DEMAND_TOLD = TOLD + """\
   A stage ends once its greens have lasted their minimum and its lanes have a gap, or at its most, where
   another one is asked for; the next one that is asked for comes, and stages that nobody asks for are left out.{stuck_told} */
PROGRAM on_demand;
"""

STUCK_TOLD = "\n   It ends without a gap too where nobody has left its lanes for `stuck` seconds: they have no way on."

COORDINATED_TOLD = TOLD + """\
   The cycle is the network's, and its clock stands at `shift` in the first second, by the light's offset.
   Stage main_stage stands until off[main_stage] in each cycle. Each other one that is asked for ends with a gap, or at off[s];
   it is left out where fewer than need[s] seconds are left until then. What the others leave is green of the main stage. */
PROGRAM coordinated;
"""

PUSHED_TOLD = (" Its push buttons are push[pushed[s]] to\n   push[over[s] - 1]; where somebody waits, stage walk[s] comes "
               "in its place, with people on foot, and gives way to s once they\n   have had their minimum. Of walker[foot[s]] "
               "to walker[past[s] - 1] the road is clear before s ends.")


def arrays_for(site):
    """The arrays that both programs have."""
    bases, walks = bases_of(site), walks_of(site)
    arrays = arrays_of([stage.lanes for stage in bases], "first", "behind", "lane")
    if site.pushes:
        walked = [site.stages[walk].walked if walk is not None else stage.walked for stage, walk in zip(bases, walks)]
        arrays.update(arrays_of([[len(site.lanes) + place for place in places] for places in walked], "pushed", "over", "push"))
        arrays["walk"] = [0 if walk is None else walk + 1 for walk in walks]
    arrays.update(arrays_of([stage.greens for stage in site.stages], "begin", "end_of", "group"))
    arrays["least"] = site.least
    if len(bases) < len(site.stages):
        walked = [None if stage.base is not None or walks[place] is None else site.stages[walks[place]]
                  for place, stage in enumerate(site.stages)]
        ended = [[group for group in walk.greens if group not in stage.greens] if walk else []
                 for walk, stage in zip(walked, site.stages)]
        arrays.update(arrays_of(ended, "foot", "past", "walker"))
        arrays["hold"] = holds_of(site)
        arrays["base"] = [stage.base + 1 for stage in site.stages[len(bases):]]
    return arrays


def parts_of(site):
    """The parts of the text that a site with people on foot has, and one with stages further on."""
    bases = bases_of(site)
    has_walks, has_pushes = len(bases) < len(site.stages), bool(site.pushes)
    is_far = reach_of(site) < len(bases) - 1
    is_alone = has_pushes and any(walk is None and stage.walked for stage, walk in zip(bases, walks_of(site)))
    return {
        "pushes_told": PUSHED_TOLD if has_walks else " Its push buttons are push[pushed[s]] to push[over[s] - 1]." if has_pushes
        else "",
        "pushed_told": ",\n   and whether somebody pushed for it" if has_pushes else "",
        "pushed_begin": "  is_pushed := 0;\n" if has_pushes else "", "pushes": PUSHES if has_pushes else "",
        "cleared_told": ", and those who walked beside it have left the road" if has_walks else "",
        "cleared": CLEARED if has_walks else "", "base": BASE if has_walks else "",
        "walk": (WALK.format(always=ALONE if is_alone else "") if has_walks else ALONE if is_alone else ""),
        "own_push": "own_push := is_pushed;\n" if has_walks else "", "stay": STAY if has_walks else "",
        "to_walk": TO_WALK if has_walks else "", "start": "steps := 0;\n" if is_far else "",
        "step": "steps := steps + 1;\n" if is_far else "", "shorten": SHORTEN if is_far else "",
        "answer": ANSWER if has_pushes else "", "is_far": is_far}


def text_of(told, constants, arrays, parts, body, **more):
    """The lines of a program."""
    texts = [f"{name}[{len(values)}] = [{', '.join(map(str, values))}]" for name, values in arrays.items()]
    head = told + "VAP_FREQUENCY 1;\nCONST {constants};\nARRAY {arrays};\n" + LOOK + "{answer}" + SETTLE
    empty = dict.fromkeys(("clock", "arrive", "gone_told", "gone_begin", "gone", "stand", "stuck_told"), "")
    parts = {**empty, **parts, **more, "constants": constants, "arrays": ",\n  ".join(texts)}
    text = (head + more.get("remain", "") + FIND + body).format(**parts)
    return text.splitlines()


def program_of(site, given):
    """The lines of on_demand.vap."""
    parts, bases = parts_of(site), bases_of(site)
    constants = f"stages = {len(bases)}, gap = {given.gap}, briefest = {given.least_green}"
    constants += f", reach = {reach_of(site)}" if parts["is_far"] else ""
    if given.stuck:
        constants += f", stuck = {given.stuck}"
        parts.update({"gone_told": ", how many have left them", "gone_begin": "  gone := 0;\n", "gone": GONE, "stand": STAND,
                      "stuck_told": STUCK_TOLD})
    return text_of(ON_DEMAND_TOLD, constants, {"most": [stage.most for stage in bases], **arrays_for(site)}, parts, ON_DEMAND)


def ends_of(site):
    """Of each stage the second of the cycle in which its longest green ends, and how long that lasts."""
    phases, ends = site.light.phases, []
    begins = [sum(phase.duration for phase in phases[:k]) for k in range(len(phases) + 1)]
    for stage in bases_of(site):
        longest = max(stage.phases, key=lambda run: sum(phases[k].duration for k in run))
        ends.append((int(begins[longest[-1] + 1]), int(sum(phases[k].duration for k in longest))))
    return ends


def coordinated_of(site, given):
    """The lines of coordinated.vap; None where the network's program has no fixed cycle, or stages without an interstage."""
    parts, bases = parts_of(site), bases_of(site)
    cycle = int(sum(phase.duration for phase in site.light.phases))
    if site.light.program.kind != "static" or parts["is_far"] or not 10 <= cycle <= 999 or not all(
            stage.phases for stage in bases):
        return None
    ends = ends_of(site)
    main = max(range(len(bases)), key=lambda place: (ends[place][1] if bases[place].lanes else 0, -place))
    shift = (given.begin + 1 - round(site.light.program.offset)) % cycle
    need = [max(site.least[group] for group in stage.greens) + max(
        interstage_of(site, a, b)[0] for a, b in pairs_of(site, reach_of(site)) if b == place)
        for place, stage in enumerate(bases)]
    constants = (f"stages = {len(bases)}, gap = {given.gap}, briefest = {given.least_green}, cycle = {cycle}, shift = {shift}, "
                 f"main_stage = {main + 1}")
    arrays = {"off": [end % cycle for end, _ in ends], "need": need, **arrays_for(site)}
    look = "IF at = main_stage THEN\n  GOSUB look\nEND;\n" if parts["to_walk"] else ""
    return text_of(COORDINATED_TOLD, constants, arrays, parts, COORDINATED, clock=CLOCK, arrive=ARRIVE, remain=REMAIN,
                   main_look=look)
