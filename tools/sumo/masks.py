"""Whether a guard shows in each second what its mask told before it, whatever the wishes of that second are.

Of a turn that is wished alone the mask tells all. Of several at once it tells this: an end comes, or is refused, as the mask
has it. A start that the mask allows comes, or stands against a group that turned in this second too. One that it refuses is
refused, but that the group in its way may have gone. All else goes on by nature, and where nothing turned by a wish each wait is
a second shorter."""

AGAINST_OTHERS = ("Conflict", "Intergreen")


def is_on(aspect):
    return aspect in "UG"


def is_end_right(turn, refusal):
    return (refusal.rule if refusal else None) == turn.rule


def is_start_right(turn, refusal, turned):
    """Whether a wished start was refused or came as the mask says, where these groups turned in its second."""
    if turn.rule is None:
        return refusal is None or refusal.rule in AGAINST_OTHERS and refusal.other in turned
    if turn.rule in AGAINST_OTHERS:
        return turn.other in turned if refusal is None else refusal.rule in AGAINST_OTHERS
    return refusal is not None and refusal.rule == turn.rule


def is_wait_right(before, after):
    """Whether a wait is a second shorter, where the group can still be wished to make the same turn."""
    if before.is_end != after.is_end:
        return True
    return after.wait == (None if before.wait is None else max(before.wait - 1, 0))


class Masks:
    """Compares the seconds of a guard with its masks, of which it counts those that are wrong and keeps the first."""

    def __init__(self, guarded):
        self.guarded, self.seconds, self.wrong, self.first, self.mask = guarded, 0, 0, None, guarded.mask()

    def compare(self, wish, record):
        """Takes the wishes of the second that was made, a letter a group, and its record."""
        before, after = self.mask, self.guarded.mask()
        ends = {turn.group: turn.is_end for turn in before.turns}
        turned = {turn.group for turn, shown in zip(before.turns, record.aspects) if is_on(shown) != turn.is_end}
        refused = {turn.group: turn for turn in record.turns}
        wished = {turn.group for turn, letter in zip(before.turns, wish) if (letter == "G") != turn.is_end}
        is_right = turned <= wished and set(refused) == wished - turned
        for turn in before.turns:
            if turn.group in wished:
                refusal = refused.get(turn.group)
                is_right &= is_end_right(turn, refusal) if ends[turn.group] else is_start_right(turn, refusal, turned)
        if not turned:
            is_right &= all(map(is_wait_right, before.turns, after.turns))
        self.mask, self.seconds = after, self.seconds + 1
        if not is_right:
            self.wrong += 1
            self.first = self.first or f"second {record.second}: wished {wish}, {before}, {record}"


__all__ = ["Masks"]
