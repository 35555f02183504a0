"""The function blocks: their kinds, the keys that each takes, and what each shows."""

KEYS = ("pos", "vel", "acc", "dec", "jerk", "mode", "master", "num", "den", "table")
MODES = ("aborting", "buffered", "blendingLow", "blendingPrevious", "blendingNext", "blendingHigh")
FLAGS = ("busy", "active", "done", "aborted", "error", "reached")
LETTERS = dict(zip(FLAGS, "BADCER"))
REACHED = {"Power": "Status", "MoveVelocity": "InVelocity", "GearIn": "InGear", "CamIn": "InSync"}
ENDLESS = ("MoveVelocity", "GearIn", "CamIn")       # commands that are never Done
RELATIVE = ("MoveRelative", "MoveAdditive")         # moves that go by a distance
MOVES = ("MoveAbsolute", *RELATIVE, "MoveLinearAbsolute", "MoveCircularAbsolute")
KEYS_OF = {
    "Home": "pos", "Stop": "dec jerk", "Halt": "dec jerk", "GroupStop": "dec jerk",
    "GroupHalt": "dec jerk", "MoveVelocity": "vel acc dec jerk mode",
    "GearIn": "acc dec jerk mode master num den", "CamIn": "vel acc dec jerk mode master table",
    **{kind: "pos vel acc dec jerk mode" for kind in MOVES},
}


def keys_of(kind: str) -> tuple[str, ...]:
    """The keys that a block of a kind takes, in their order."""
    return tuple(KEYS_OF.get(kind, "").split())


def acts_on_group(kind: str) -> bool:
    """Whether a kind acts on a group, and not on an axis."""
    return kind.startswith("Group") or kind.endswith("arAbsolute")


def reached_name(kind: str) -> str:
    """The name of the output that a block shows as `reached`."""
    return REACHED.get(kind, "Reached")
