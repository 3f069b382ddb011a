"""The commands of the prompt, as `help` lists them: each with its form, what it does, and the function that does it."""
from dataclasses import dataclass
from typing import TYPE_CHECKING, Callable, Dict, List

from front.commands import asking, editing, looking, surveying, writing
from front.words import Word

if TYPE_CHECKING:
    from front.shell import Shell


@dataclass(frozen=True)
class Command:
    """A command: how it is written, what it does, and what is done with its words. One whose whole line is read otherwise (`raw`, `save`, `quit`) has nothing
    that is done."""

    form: str
    what: str
    run: "Callable[[Shell, str, List[Word]], None]" = lambda shell, word, words: None


def told_help(shell: "Shell", _word: str, words: List[Word]) -> None:
    """What there is."""
    if words and words[0].text in COMMANDS:
        shell.usage(words[0].text)
    else:
        shell.output.show([*listed(), NUMBERS], is_whole=True)


def listed() -> List[str]:
    """The commands, a line each."""
    return [f"{it.form:<22} {it.what}" for it in COMMANDS.values()]


COMMANDS: Dict[str, Command] = {
    "get": Command("get [-x] [PATH]", "the value, with -x as 0x1f; without PATH that of the place in the prompt. `*` for a step asks for all", asking.question),
    "at": Command("at [PATH]", "where it begins and ends", asking.question),
    "ls": Command("ls [PATH]", "its members, or how many elements it has", asking.question),
    "dump": Command("dump [PATH]", "all that is in it, as JSON", asking.question),
    "cd": Command("cd [PATH]", "goes to a place in the tree; PATHs without `/` at their front begin there; `..` is one step up", looking.go),
    "tree": Command("tree [PATH] [DEPTH]", "each member with its place and value, DEPTH steps down (2)", looking.tree),
    "more": Command("more", "the next elements of the list that the last `tree` cut", looking.more_of),
    "hex": Command("hex POS|PATH [N]", "N bytes from POS on (256), or those around PATH; what was asked last is marked", looking.show_bytes),
    "where": Command("where POS", "the innermost member that has this byte", looking.where),
    "find": Command('find HEX|"TEXT"', "each place where these bytes are", looking.find),
    "faults": Command("faults [PATH]", "all faults below PATH, instances too, each once", surveying.show_faults),
    "cover": Command("cover", "the bytes that no member has, and those that two have", surveying.show_cover),
    "diff": Command("diff FILE2 [PATH]", "what differs in another file, by the same description", surveying.show_differences),
    "put": Command("put PATH INT", "writes a number over an integer", editing.edit),
    "write": Command("write PATH VALUE", 'writes a value: a number, a "TEXT" or bytes that fit, true or false, the name of an enum\'s member', writing.write),
    "set": Command("set POS HEX", "writes bytes over those from POS on", editing.edit),
    "ins": Command("ins POS HEX", "puts bytes before POS", editing.edit),
    "del": Command("del POS COUNT", "takes bytes out", editing.edit),
    "app": Command("app HEX", "adds bytes at the end", editing.edit),
    "insert": Command("insert POS IN", "puts the bytes of the file IN before POS", writing.insert),
    "replace": Command("replace PATH IN", "puts the bytes of the file IN in the place of what is at PATH", writing.replace),
    "extract": Command("extract PATH OUT", "writes the bytes of what is at PATH to a new file OUT", writing.extract),
    "undo": Command("undo", "takes the last edit back", editing.undo),
    "redo": Command("redo", "makes the edit again that `undo` took back", editing.redo),
    "edits": Command("edits", "the edits so far", editing.listed),
    "save": Command("save [OUT]", "writes the bytes to OUT, or where `--save` said"),
    "recover": Command("recover [drop]", "takes up edits over this file that another session left without saving them; `recover drop` removes them", editing.recover),
    "bytes": Command("bytes POS COUNT", "these bytes, as hexadecimal digits", asking.plain),
    "size": Command("size", "the number of bytes", asking.plain),
    "stats": Command("stats", "how many answers ksv keeps, and the work of the last question", asking.plain),
    "numbers": Command("numbers hex|decimal", "how integers are shown from now on", asking.numbers),
    "reload": Command("reload", "reads the description again; the bytes and the edits stay. Where it is refused, the old one stays", looking.reload),
    "raw": Command("raw LINE", "sends a line to ksv as it is"),
    "all": Command("all", "the last reply whole, where it was cut", asking.show_all),
    "help": Command("help [WORD]", "this, or one command", told_help),
    "quit": Command(
        "quit", "ends; ctrl-D too. The bytes are saved where `--save` said; else, where edits aren't saved, it says so and stays, and a second `quit` loses them"
    ),
}
NUMBERS = 'POS, COUNT, N and INT may be written as 0x1f. HEX may have spaces between bytes, and "TEXT" among them, with \\n, \\x1f or \\" in it. ' \
    "The commands are those of docs/REFERENCE.md and more."
WITH_PATH = ("get", "at", "ls", "dump", "put", "cd", "tree", "hex", "faults", "write", "replace", "extract")
