"""What each command accesses, for barriers: docs/RECORDING.md, "What each command accesses"."""

# The stage at which a command works, what it reads with, and what it writes with.
ACCESSES = {
    "update": ("transfer", (), ("transfer_write",)), "fill": ("transfer", (), ("transfer_write",)),
    "copy": ("transfer", ("transfer_read",), ("transfer_write",)),
    "build": ("build", ("shader_read", "structure_read"), ("structure_write",)),
    "copy_structure": ("structure_copy", ("structure_read",), ("structure_write",)),
    "serialize": ("structure_copy", ("structure_read",), ("transfer_write",)),
    "deserialize": ("structure_copy", ("transfer_read", "structure_read"), ("structure_write",)),
    "property": ("build", ("structure_read",), ("transfer_write",)),
    "trace": ("compute", ("structure_read", "shader_read"), ("shader_write",)),
    "read": ("host", ("host_read",), ()),
}


def between(before, after):
    """Returns the members of a barrier from what some commands write to all that others access.

    Both are names of commands in one text, as "copy" or "copy update".
    """
    earlier, later = ([ACCESSES[it] for it in names.split()] for names in (before, after))
    return {
        "src_stages": once(stage for stage, _, _ in earlier),
        "src_access": once(it for _, _, writes in earlier for it in writes),
        "dst_stages": once(stage for stage, _, _ in later),
        "dst_access": once(it for _, reads, writes in later for it in (*reads, *writes)),
    }


def once(words):
    """Returns the words in their order, each once."""
    return list(dict.fromkeys(words))
