"""The large input that a seed gives, as the lines of a script, by the rules of `generate` in `crates/wm_script`."""

import json

DAY = 86_400_000
NETWORKS = ("NOT_REQUIRED", "CONNECTED", "UNMETERED", "NOT_ROAMING", "METERED")
FOURTH_CLASSES = ("Sum", "FailUntil", "RetryUntil", "Echo")
UNMETERED = {"cmd": "conditions", "connected": True, "charging": True, "idle": True}


class Draws:
    """Numbers that are drawn one after another from a seed."""

    def __init__(self, seed):
        self.number = seed

    def draw(self, end):
        """Draws one of 0 to end - 1."""
        self.number = (self.number * 6364136223846793005 + 1442695040888963407) % 2**64
        return (self.number >> 33) % end


def constraints_of(signature):
    """The constraints of a signature, of 0 to 79."""
    names = ("storage_not_low", "battery_not_low", "idle", "charging")
    flags = {name: bool(signature >> bit & 1) for bit, name in enumerate(names)}
    return {"network": NETWORKS[signature // 16], **flags}


def group_of(seed, group, draws):
    """The line of a group of five works: three, one after these, and one after that one."""

    def work(place, kind, **further):
        return {"id": f"{(seed << 64) + 5 * group + place:032x}", "class": kind, **further}

    def drawn_work(place):
        constraints = constraints_of(draws.draw(80))
        return work(place, "Echo", constraints=constraints, input={"x": {"int": draws.draw(1000)}})

    first = [drawn_work(place) for place in (1, 2, 3)]
    if group % 4 == 3:
        first[0] |= {"delay": DAY, "tags": ["late"]}
    layers = [first, [work(4, FOURTH_CLASSES[group % 4])], [work(5, "Echo")]]
    return {"cmd": "enqueue", "layers": layers}


def lines(seed, groups):
    """The commands of a seed, with so many groups."""
    draws = Draws(seed)
    yield {"cmd": "hush"}
    yield UNMETERED
    for group in range(groups):
        yield group_of(seed, group, draws)
    settle = {"cmd": "settle"}
    yield settle
    yield {**UNMETERED, "metered": True}
    yield settle
    yield {"cmd": "cancel", "tag": "late"}
    yield settle
    yield {"cmd": "moment", "at": 30_000}
    yield settle
    yield {"cmd": "summary"}


def script(seed, groups):
    """The script of a seed, with so many groups, as bytes."""
    return "".join(json.dumps(line, separators=(",", ":")) + "\n" for line in lines(seed, groups)).encode()


def summary(groups):
    """What the last line of such a script is answered on a new store, where groups is a multiple of 4."""
    m = groups // 4
    counts = {"attempts": 17 * m, "blocked": 0, "cancelled": 3 * m, "enqueued": 0, "failed": 2 * m}
    counts |= {"line": groups + 10, "ok": "summary", "running": 0, "succeeded": 15 * m}
    return json.dumps(counts, separators=(",", ":"))


def commits(groups):
    """How many commits it takes: one for each group, two for each attempt, and one for the cancel."""
    m = groups // 4
    return groups + 2 * 17 * m + 1
