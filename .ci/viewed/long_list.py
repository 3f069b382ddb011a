"""A list of as many elements as there may be: how long its first screen, a page, and its end take. The same of keys on long texts."""
import time
from typing import Iterator, List

from viewed import desks, fresh

COUNT = 1 << 20
# The most seconds of a first screen over the program's own questions, of a page, and of the last row; where the machine is busy it is tried again.
FIRST, PAGE, LAST, TRIED = 1.0, 0.1, 0.1, 3
PAGES = 6
# The most seconds that keys on a text may take; and texts, each with keys: one in which each letter has a width of its own, and one like names of enums.
LETTER = 0.3
TEXTS = [("\u00e4" * 1_000_000, "down down right up x"), ("::a" * 10_000, 'down down e :"x" enter')]

# The last two bytes of a file, which may be faults behind a long list; keys; and the path and the message then.
GIVEN_UP = "nothing up to /xs/"
WALKS = [
    (1, "f", ("/", GIVEN_UP)), (1, "f*5", ("/one", "")), (1, "f*6", ("/two", "")), (1, "/ :one enter", ("/", GIVEN_UP)),
    (1, "/ :one enter n*4", ("/one", "a name")), (1, "/ :aa enter home f n", ("/xs/0/aa", "a name")), (1, "/ :one enter f n*4", ("/one", "a name")),
    (5, "f*5", ("/", "no faults")), (5, "down right down f*6", ("/xs/0", "no faults")), (5, "tab F*5", ("/", "no faults")),
]


def trials(room: str) -> Iterator[str]:
    """What takes too long, or is wrong, in a view of a long list; and what it took."""
    with open(f"{room}/long.ksy", "w", encoding="utf-8") as file:
        file.write(f"meta: {{id: t}}\nseq:\n  - {{id: xs, type: u1, repeat: expr, repeat-expr: {COUNT}}}\n")
    with open(f"{room}/long.bin", "wb") as file:
        file.write(bytes(range(256)) * (COUNT // 256))
    for _ in range(TRIED):
        found = timed(f"{room}/long.bin", f"{room}/long.ksy")
        if not any(found):
            break
    yield from found
    for text, keys in TEXTS:
        yield written(room, text, keys)
    yield from walked(room)


def walked(room: str) -> Iterator[str]:
    """Walks that are given up in a long list: the key that is told goes on, finds what is behind the list, and ends where nothing is."""
    with open(f"{room}/walk.ksy", "w", encoding="utf-8") as file:
        file.write("meta: {id: t}\nseq:\n  - {id: xs, type: rec, repeat: expr, repeat-expr: 600}\n  - {id: one, type: u1, valid: 5}\n"
                   "  - {id: two, type: u1, valid: 5}\ntypes:\n  rec:\n    seq:\n      - {id: aa, type: u1}\n")
    for last, script, wanted in WALKS:
        with open(f"{room}/walk.bin", "wb") as file:
            file.write(b"\1" * 600 + bytes([last, last]))
        with desks.opened(f"{room}/walk.bin", f"{room}/walk.ksy") as desk:
            desk.most_walked = 500
            desks.play(desk, script)
            own = desk.state.path, desk.state.message
            yield "" if own[0] == wanted[0] and own[1].startswith(wanted[1]) else f"{script} with {last} at the end: {own}"


def written(room: str, text: str, keys: str) -> str:
    """Whether a key on a long text takes long: nothing, or the keys and how long each took."""
    with open(f"{room}/text.ksy", "w", encoding="utf-8") as file:
        file.write("meta: {id: t, encoding: UTF-8}\nseq:\n  - {id: before, type: u1}\n  - {id: word, type: strz}\n")
    with open(f"{room}/text.bin", "wb") as file:
        file.write(b"\1" + text.encode() + b"\0")
    took = []
    with desks.opened(f"{room}/text.bin", f"{room}/text.ksy") as desk:
        desk.screen()
        for it in keys.split():
            at = time.process_time()
            desks.press(desk, it)
            desk.screen()
            took.append(time.process_time() - at)
    return "" if max(took) < LETTER else f"keys {keys} on a text of {len(text)} letters, {text[:6]}: {' '.join(f'{it:.2f}' for it in took)} s"


def timed(name: str, ksy: str) -> List[str]:
    """One trial: a session of the view, beside one of the program alone."""
    with open(name, "rb") as file:
        content = file.read()
    begun = time.monotonic()
    fresh.replies(content, ksy, ["get /", "at /", "ls /xs", "get /xs", "at /xs", "get /xs/0"])
    own, begun = time.monotonic() - begun, time.monotonic()
    with desks.opened(name, ksy) as desk:
        for key in ("down", "right"):
            desk.screen()
            desk.key(key)
        desk.screen()
        first, pages, last = time.monotonic() - begun, [], 0.0
        for key in ["pgdn"] * PAGES + ["end"] + ["pgup"] * PAGES:
            at = time.monotonic()
            desk.key(key)
            desk.screen()
            took = time.monotonic() - at
            last = took if key == "end" else last
            pages += [took] if key != "end" else []
        why = fresh.wrong(desk, desk.screen(), ksy) or ("" if f"/xs/{COUNT - 1 - PAGES * 13}" == desk.state.path else f"pages led to {desk.state.path}")
    page = sorted(pages)[len(pages) // 2]
    print(f"view: a list of {COUNT} elements: the program's own questions {own:.2f} s, first screen {first:.2f}, a page {page:.3f}, End {last:.3f}", flush=True)
    return [why, f"the first screen took {first:.2f} s, and the program {own:.2f}" if first > own + FIRST else "",
            f"pages took {' '.join(f'{it:.3f}' for it in pages)} s" if page > PAGE else "", f"End took {last:.3f} s" if last > LAST else ""]
