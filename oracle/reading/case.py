"""The values of one call."""


class Case:
    """A call: its function and mode, the model, the base state and the lists."""

    __slots__ = (
        "function", "mode", "id", "count", "moving", "links", "kinds", "parents", "numbers",
        "joints", "base", "posed", "poses", "speeds", "accelerations", "loads", "room",
    )
