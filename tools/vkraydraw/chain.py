"""The commands of a recording by their stages, from above to below, and what its barriers hand on.

It draws what the recording says and what vkray answers; what is ordered or covered it doesn't decide.
"""

from vkraypack.accesses import ACCESSES

from . import svg

LANES = ("transfer", "build", "structure_copy", "compute", "host")
STAGES = {"all": LANES[:4]}
NAMED = 4  # so many of the buffers that a barrier names are told
LEFT, LANE, TOP, RIGHT = 46, 216, 52, 220
BAR, GOOD, BAD = "#8a6d1d", "#2f5d8a", "#c22f2f"


def chain(commands, answer):
    """Returns the drawing; the commands that a refusal in the answer names are red."""
    words = answer.split()
    refused = words[:1] == ["refused"]
    named = {int(words[1])} if refused else set()
    if refused and words[3:4] == ["with"]:
        named.add(int(words[4]))
    made, y = [], TOP
    for number, command in enumerate(commands):
        if command["op"] in ACCESSES:
            made += command_drawn(number, command, y, number in named)
            y += 60
        elif command["op"] == "barrier":
            made += barrier_drawn(number, command, y)
            y += 74
        elif command["op"] == "wait":
            made.append(svg.text(LEFT - 10, y + 14, str(number), color="#777", anchor="end"))
            made.append(svg.line(LEFT, y + 10, LEFT + 4 * LANE - 10, y + 10, "#777", 2, "7 5"))
            made.append(svg.text(LEFT + 4 * LANE, y + 14, "wait", color="#777", anchor="start"))
            y += 30
    told = answer.strip().split("\n")[0]
    made.append(svg.text(LEFT, y + 26, f"vkray says: {told}", 16, BAD if refused else GOOD, "start", "bold"))
    lanes = []
    for place, name in enumerate(LANES):
        lanes.append(svg.box(LEFT + place * LANE, 8, LANE - 10, y - 8, "#f4f4f1"))
        lanes.append(svg.text(middle(name), 32, name, 16, weight="bold"))
    width = LEFT + len(LANES) * LANE + (RIGHT if any("buffers" in it for it in commands) else 0)
    return svg.document(width, y + 44, lanes + made, "The synchronization of a recording")


def middle(lane):
    """Returns the middle of a lane."""
    return LEFT + LANES.index(lane) * LANE + (LANE - 10) / 2


def command_drawn(number, command, y, red):
    """Returns the box of a command in the lane of its stage."""
    stage, reads, writes = ACCESSES[command["op"]]
    x, color = middle(stage), BAD if red else GOOD
    accesses = [*(["reads: " + ", ".join(reads)] if reads else []), *(["writes: " + ", ".join(writes)] if writes else [])]
    made = [svg.text(LEFT - 10, y + 30, str(number), color=color, anchor="end", weight="bold")]
    made.append(svg.box(x - 100, y, 200, 52, "#fbe3e3" if red else "white", color, 2.5 if red else 1.5))
    made.append(svg.text(x, y + 17, command["op"], 14, color, weight="bold"))
    return made + [svg.text(x, y + 32 + 13 * place, it, 11) for place, it in enumerate(accesses)]


def barrier_drawn(number, command, y):
    """Returns a barrier: its sources above the bar, its destinations below it, and beside it what it names."""
    made = [svg.text(LEFT - 10, y + 38, str(number), color=BAR, anchor="end", weight="bold")]
    limited, width = "buffers" in command, len(LANES) * LANE - 10
    made.append(svg.box(LEFT, y + 29, width, 8, *(("white", BAR, 2) if limited else (BAR,))))
    if limited:
        made.append(svg.text(LEFT + width + 8, y + 37, told_buffers(command["buffers"]), 11, BAR, "start"))
    for lane in lanes_of(command["src_stages"]):
        x = middle(lane)
        made += [svg.line(x, y, x, y + 29, BAR, 2), svg.disc(x, y + 4, 4, BAR)]
        made.append(svg.text(x + 8, y + 20, ", ".join(command["src_access"]) or "no access", 11, BAR, "start"))
    for lane in lanes_of(command["dst_stages"]):
        x = middle(lane)
        made += [svg.line(x, y + 37, x, y + 60, BAR, 2), svg.polygon([(x - 5, y + 58), (x + 5, y + 58), (x, y + 68)], BAR)]
        words = command["dst_access"] or ["no access"]
        made += [svg.text(x + 8, y + 51 + 13 * place, it, 11, BAR, "start") for place, it in enumerate(words)]
    return made


def lanes_of(stages):
    """Returns the lanes of words of stages."""
    named = {lane for it in stages for lane in STAGES.get(it, (it,))}
    return [it for it in LANES if it in named]


def told_buffers(named):
    """Returns the words for the buffers that a barrier names, each once."""
    ids = sorted(set(named))
    more = f" and {len(ids) - NAMED} more" if len(ids) > NAMED else ""
    return f"buffers {', '.join(map(str, ids[:NAMED]))}{more}" if ids else "no buffers"
