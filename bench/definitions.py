#!/usr/bin/env python3
"""What a reader of the clauses of `run` and of the library's calls has to read: definitions.py [ROOT [CRATE | heads]]

Follows the names in these clauses through the definitions of all crates, and prints how many of them it reaches, by kind and by crate; which names
mean two things among them; which files of definitions don't say in their first line whether they are believed, and which rows of docs/READING.md
have another mark than they should; and how wide the lines of clauses are. With a crate it names that crate's definitions, each with one that leads
to it; with `heads` it writes those first lines.
"""

import collections
import pathlib
import re
import sys

# the functions whose clauses are believed, each by the files where it stands and the text with which it begins
PROGRAM = ("ccsuite_cli/src/program.rt", r"pub fn run<")
LIBRARY = ("ccsuite_c/src/*.rt", r'pub extern "C" fn ')
# the standards' own: their codes, what a receiver makes of them, and the forms of bytes that they or others lay down; all else is this project's: its
# forms of bytes and of texts, to which a reader can hold no standard; notions; and what joins commands. A crate is of one kind, but for files of it
# that are of another:
# - line21_slots is a table of the standards: in which frames of a rate each field of line 21 has its pairs;
# - what a cue, a window and a share may be (cue_types) is the form of cue lists, as cue_form's records of them are; the other
#   notions of cues are own;
# - the words in which frames are written (frame_carrier) are a written form of the standards;
# - the lines that commands put are own forms of text, as the lines of grids are;
# - that control pairs are sent twice (in lanes) is the standards' rule for pairs;
# - what a receiver holds behind pairs and bytes is a receiver's, though crates of laws say it;
# - crates of commands join, all of them.
KINDS = {
    "tables": "cc_base line21_codes dtvcc_codes findings hex_digits line21_slots",
    "receivers": "line21_screen dtvcc_windows dtvcc_screen dtvcc_services cc_receiver cc_conceal line21_shown.Shown windows_shown.Filling"
    " services_shown.Buffers",
    "grammars": "cc_data channel_packets service_blocks cdp_packets anc_words caption_packets words_files services_files scc_files mcc_files time_codes"
    " xds_packets frame_carrier.FrameTriplets frame_carrier.Carrying lanes.DoubledPairs",
    "own forms": "cue_form xds_lists grid_print cue_types.Cues cue_types.Windows cue_types.Shares cue_list_commands.Lines"
    " words_commands.Screens words_commands.PacketLines words_commands.ConcealedScreens",
    "glue": "command_base frame_carrier.Framing cue_list_commands words_reading words_commands verify_commands insert_commands dual_commands"
    " xds_commands scc_commands mcc_commands convert_commands load_commands.LoadVerdict load_commands.LoadOutput ccsuite_cli reported_runs"
    " caption_streams ccsuite_c",
}
WIDE = 100
# the first line of each file of definitions: all of it is believed, or some, by the program's clauses or only by the library's; or none
BELIEVED = "-- Believed: the program's answer stands on these definitions."
BY_LIBRARY = "-- Believed: the library's answers stand on these definitions."
IN_PART = "-- Believed in part: the program's answer stands on some of these definitions."
IN_PART_BY_LIBRARY = "-- Believed in part: the library's answers stand on some of these definitions."
BETWEEN = "-- Between crates: the program's answer stands on none of these definitions."
HEADS = (BELIEVED, BY_LIBRARY, IN_PART, IN_PART_BY_LIBRARY, BETWEEN)

NAME = r"[^\s(){},;→λ×⊎∷]+"
IMPORT = re.compile(r"(?:pub )?use ([\w.\-]+?)(?:\.\{(.*)\})?(?: as (\w+))?\s*$")
HEAD = re.compile(r"(?:abbrev |unfoldable |record |data |pub |generated )*([^\s:(]+)")


class Module:
    """The definitions of a file, the names that it takes from others, and its words for whole modules."""

    def __init__(self, text):
        self.definitions, self.names, self.modules = collections.defaultdict(str), {}, {}
        current = None
        for line in text.splitlines(keepends=True):
            taken = IMPORT.match(line)
            if taken:
                self.take(*taken.groups())
            elif line.strip() and not line.startswith("--"):
                if not line[0].isspace() and line[0] != "}":
                    current = HEAD.match(line)[1]
                if current and current not in ("mod", "unfolding"):
                    self.definitions[current] += line

    def take(self, module, names, word):
        if names is None:
            self.modules[word or module.split(".")[-1]] = module
        for name in (names or "").split(","):
            parts = name.strip().split(" as ")
            self.names[parts[-1]] = (module, parts[0])


def bound(clause, name):
    """The names that a clause binds itself: parameters, fields, and those of lambdas and lets."""
    found = set()
    for words in re.findall(r"[({]([^(){}:]+?) : ", clause) + re.findall(r"λ ([^.(]+)\.", clause) + re.findall(r"λ \((\w+) :", clause):
        found.update(words.split())
    found.update(re.findall(r"(?m)^\s+(?:pub )?([^\s:(]+) :", clause))
    for words in re.findall(r"let \(?([^=]+?)\)? = ", clause):
        found.update(re.findall(r"[^\s(){},;]+", words))
    head = re.match(re.escape(name) + r"((?: [^=]*?)?) =\s", clause)
    if head:
        found.update(it for it in re.findall(r"[^\s(){},;∷×]+", head[1]) if re.fullmatch(r"[a-zαβ_][^.]*", it))
    return found


def references(text, name):
    """The names that a definition refers to."""
    found = set()
    for clause in re.split(r"(?m)^(?=\S)", text):
        clause = re.sub(r'--[^\n]*|"[^"\n]*"', "", clause)
        if "record" in clause:
            clause = re.sub(r"(?<=[{;\s])[^\s(){};]+ = (?=\S)", lambda it: it[0] if it.start() == 0 else " ", clause)
        found.update(it for it in re.findall(NAME, clause) if it not in bound(clause, name))
    return found


class House:
    """All definitions of a repository."""

    def __init__(self, root):
        self.modules, self.aliases = {}, {}
        for file in sorted(root.glob("crates/*/specs/**/*.antt")):
            crate, inner = file.parts[len(root.parts) + 1], file.with_suffix("").parts[len(root.parts) + 3 :]
            text = file.read_text()
            self.modules[".".join(("Rattle", crate, "specs", *inner))] = Module(text)
            if inner == ("Lib",):
                for taken in re.finditer(r"(?m)^pub use (Rattle\.[\w.]+)(?: as (\w+))?\s*$", text):
                    self.aliases[f"Rattle.{crate}.specs.{taken[2] or taken[1].split('.')[-1]}"] = taken[1]

    def home(self, module, name):
        """The module that defines a name, behind the modules that hand it on."""
        for _ in range(8):
            for alias, meant in self.aliases.items():
                if module == alias or module.startswith(alias + "."):
                    module = meant + module[len(alias) :]
            found = self.modules.get(module)
            if found is None or name in found.definitions or name not in found.names:
                break
            module, name = found.names[name]
        return (module, name) if found is not None and name in found.definitions else None

    def meant(self, module, word):
        """What a word of a definition may name."""
        here = self.modules[module]
        for name in (word, word.strip(".")):
            if name in here.definitions:
                return (module, name)
            if name in here.names:
                return here.names[name]
        head, _, rest = word.partition(".")
        return (here.modules[head], rest) if rest and head in here.modules else None

    def reached(self, starts):
        """The definitions that some lead to, each with the one that led to it first."""
        found, ahead = {}, [(start, None) for start in starts]
        while ahead:
            asked, by = ahead.pop()
            it = self.home(*asked)
            if it is None or it in found:
                continue
            found[it] = by
            module, name = it
            for word in references(self.modules[module].definitions[name], name):
                meant = self.meant(module, word)
                if meant:
                    ahead.append((meant, it))
        return found


def named_in_clauses(root, place):
    """What the clauses of functions name, by the modules that their files take it from."""
    files, begins = place
    for file in sorted(root.glob("crates/" + files)):
        text = file.read_text()
        taken = Module(re.sub(r"(?m)^ghost (use [^;]*);$", r"\1", text))
        for function in re.finditer(rf"(?ms)^{begins}.*?^\{{", text):
            for clause in re.split(r"\b(?:ensures|requires)\b", function[0])[1:]:
                yield from (taken.names[word] for word in set(re.findall(NAME, clause)) if word in taken.names)


def crate_of(module):
    return module.split(".")[1]


def kind_of(module):
    """The kind of a definition: its file's, or else its crate's."""
    _, crate, _, *inner = module.split(".")
    names = (".".join((crate, *inner)), crate)
    return next((kind for name in names for kind, listed in KINDS.items() if name in listed.split()), "own notions")


def clause_lines(root):
    """The lines of the clauses of all crates, apart from tests."""
    for file in root.glob("crates/*/src/**/*.rt"):
        if "tests" not in file.name and not any(part.endswith("tests") for part in file.parts):
            text = file.read_text()
            for clause in re.finditer(r"(?m)^ *(?:ensures|requires)\b.*(?:\n {8,}(?!ensures|requires)\S.*)*", text):
                yield from clause[0].splitlines()


def heads(root, house, by_program, found):
    """The files of definitions, each with the first line that it should have."""
    for file in sorted(root.glob("crates/*/specs/**/*.antt")):
        module = "Rattle." + str(file.relative_to(root / "crates").with_suffix("")).replace("/", ".")
        names = house.modules[module].definitions if module in house.modules else ()
        if names:
            own, all_reached = (sum((module, name) in those for name in names) for those in (by_program, found))
            if all_reached == len(names):
                yield file, BELIEVED if own == len(names) else BY_LIBRARY
            else:
                yield file, IN_PART if own else IN_PART_BY_LIBRARY if all_reached else BETWEEN


def write_heads(root, house, by_program, found):
    """Gives each file of definitions its first line."""
    for file, head in heads(root, house, by_program, found):
        lines = file.read_text().splitlines(keepends=True)
        if lines[0] != head + "\n":
            file.write_text(head + "\n" + "".join(lines[lines[0].rstrip("\n") in HEADS :]))


def rows(text):
    """The names of READING's rows, each with whether it is marked as one of laws and the files that the row names."""
    for line in text.splitlines():
        cells = [cell.strip() for cell in re.split(r"(?<!\\)\|", line)[1:-1]]
        if len(cells) > 2 and "`" in cells[0]:
            files, folder = [], ""
            for named in re.findall(r"`([^`]+)`", cells[2]):
                files.append(named if "/specs/" in named else folder + named)
                folder = re.match(r".*/specs/|", files[-1])[0]
            believed, *laws = cells[0].split("**law**")
            yield from ((name, False, files) for name in re.findall(r"`([^`]+)`", believed))
            yield from ((name, True, files) for part in laws for name in re.findall(r"`([^`]+)`", part))


def defined_in(house, files, name):
    """The definitions of a name in files, or in their folders and those below."""
    for file in files:
        start = "Rattle." + file.removesuffix(".antt").strip("/").replace("/", ".")
        for module, held in house.modules.items():
            if name in held.definitions and (module == start or module.startswith(start + ".") or not file.endswith(".antt") and module.startswith(start)):
                yield (module, name)


def wrong_marks(root, house, found):
    """The names of READING that a row marks otherwise than they are believed, or that its files don't define."""
    for name, is_law, files in rows((root / "docs/READING.md").read_text()):
        places = list(defined_in(house, files, name))
        if not places:
            yield f"{name}: in none of {', '.join(files)}"
        elif any(place in found for place in places) == is_law:
            yield f"{name}: is {'believed' if is_law else 'a law'}"


def twice_named(found):
    """The names that mean two things, each with the modules where it stands."""
    homes = collections.defaultdict(list)
    for module, name in found:
        homes[name].append(module.removeprefix("Rattle.").replace(".specs.", ":"))
    return {name: sorted(modules) for name, modules in sorted(homes.items()) if len(modules) > 1}


def listed(title, lines):
    print(len(lines), title)
    for line in lines:
        print("     ", line)


def main(root, crate=None):
    house = House(root)
    program = list(named_in_clauses(root, PROGRAM))
    by_program = house.reached(program)
    found = house.reached(program + list(named_in_clauses(root, LIBRARY)))
    if crate == "heads":
        write_heads(root, house, by_program, found)
        return
    if crate:
        for (module, name), by in sorted(found.items()):
            if crate_of(module) == crate:
                print(module.split(".specs.")[1], name, "<-", by[1] if by else "")
        return
    for of, those in (("", found), (" by the program's clauses", by_program)):
        by_kind = collections.Counter(kind_of(it[0]) for it in those)
        print(f"{len(those)} definitions{of}:", ", ".join(f"{count} {kind}" for kind, count in by_kind.most_common()))
    for (name, kind), count in collections.Counter((crate_of(it[0]), kind_of(it[0])) for it in found).most_common():
        print(f"{count:5} {name} ({kind})")
    listed("names mean two things", [" ".join((name, *modules)) for name, modules in twice_named(found).items()])
    wrong = [file for file, head in heads(root, house, by_program, found) if not file.read_text().startswith(head + "\n")]
    listed("files of definitions whose first line doesn't say whether they are believed", [str(file.relative_to(root)) for file in wrong])
    listed("names in docs/READING.md with another mark than they should have", list(wrong_marks(root, house, found)))
    widths = [len(line) for line in clause_lines(root)]
    wide = sum(width > WIDE for width in widths)
    print(f"{len(widths)} lines of clauses, {100 * wide / len(widths):.0f} % of them above {WIDE} columns")


if __name__ == "__main__":
    main(pathlib.Path(sys.argv[1] if len(sys.argv) > 1 else ".").resolve(), *sys.argv[2:3])
