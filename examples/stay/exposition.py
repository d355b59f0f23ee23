"""The text of a server's metrics, worked out from the rows of its report by the words of docs/PAGE.md."""

import collections

KINDS = """admit queue-full overload assign direct run finish expire cancel lost-request create limit ready drain remove
lost-pod decision no-data phase mode not-running not-waiting not-starting no-pod""".split()

AVERAGE = "Requests over the %s window at the last decision, on average, rounded down."

# of each family its type and what is said of it
FAMILIES = {
    "kactd_rows_total": ("counter", "Rows of the report since the server began, by kind."),
    "kactd_rows_recorded_total": ("counter", "Rows of the journal recorded since the server began."),
    "kactd_rows_unprinted": ("gauge", "Recorded rows of the journal that are not handed to the printer yet."),
    "kactd_pods": ("gauge", "Live pods, by state."),
    "kactd_pods_wanted": ("gauge", "Pods wanted by the last decision, or by the setup before the first."),
    "kactd_requests": ("gauge", "Live requests, by state."),
    "kactd_connections_waiting": ("gauge", "Connections that wait for a slot."),
    "kactd_slots_at_work": ("gauge", "Slots at work."),
    "kactd_decision_stable": ("gauge", AVERAGE % "stable"),
    "kactd_decision_panic": ("gauge", AVERAGE % "panic"),
    "kactd_decision_want": ("gauge", "Pods wanted by the last decision."),
}

# where a request or a pod is behind a row of it; None: it is gone
REQUESTS = {"admit": "held", "direct": "queued", "assign": "running", "run": "running"}
REQUESTS |= dict.fromkeys(("finish", "expire", "cancel", "lost-request"))
PODS = {"create": "starting", "ready": "ready", "drain": "draining", "remove": None, "lost-pod": None}


def standing(rows, moves):
    """How many are where, of those whose rows these are."""
    where = {}
    for row in rows:
        _, kind, *rest = row.split()
        if kind in moves:
            where[rest[0]] = moves[kind]
    return collections.Counter(where.values())


def decisions(rows):
    """The fields of each decision."""
    return [dict(word.split("=") for word in row.split()[2:]) for row in rows if row.split()[1] == "decision"]


def thousandths(fraction):
    """A fraction with three digits behind the point, rounded down."""
    over, under = map(int, fraction.split("/"))
    whole, part = divmod(over * 1000 // under, 1000)
    return f"{whole}.{part:03}"


def samples(rows, opening, beside, initial):
    """Each family that has something to say, and what: a number, or numbers by the values of a label."""
    counts = collections.Counter(row.split()[1] for row in rows[opening:])
    pods, requests, decided = standing(rows, PODS), standing(rows, REQUESTS), decisions(rows)
    yield "kactd_rows_total", [(f'{{kind="{kind}"}}', counts[kind]) for kind in KINDS]
    yield "kactd_rows_recorded_total", [("", beside["kactd_rows_recorded_total"])]
    yield "kactd_rows_unprinted", [("", beside["kactd_rows_unprinted"])]
    yield "kactd_pods", [(f'{{state="{state}"}}', pods[state]) for state in ("ready", "starting", "draining")]
    if initial is not None:
        yield "kactd_pods_wanted", [("", decided[-1]["want"] if decided else initial)]
    yield "kactd_requests", [(f'{{state="{state}"}}', requests[state]) for state in ("held", "queued", "running")]
    yield "kactd_connections_waiting", [("", beside["kactd_connections_waiting"])]
    yield "kactd_slots_at_work", [("", beside["kactd_slots_at_work"])]
    if decided:
        yield "kactd_decision_stable", [("", thousandths(decided[-1]["stable"]))]
        yield "kactd_decision_panic", [("", thousandths(decided[-1]["panic"]))]
        yield "kactd_decision_want", [("", decided[-1]["want"])]


def text(rows, opening, beside, initial=None):
    """The metrics of a revision that made these rows, so many of them as it opened, and that wanted so many pods then,
    where it scales. `beside` are the numbers that no row says, by their families."""
    said = ""
    for name, values in samples(rows, opening, beside, initial):
        kind, told = FAMILIES[name]
        said += f"# HELP {name} {told}\n# TYPE {name} {kind}\n"
        said += "".join(f"{name}{label} {value}\n" for label, value in values)
    return said
