"""What tshark prints of octets, and the tables of what it is to print."""
import json
import re
import subprocess
import tempfile

BEGINNING = "ieee1609dot2."
# Details of the encoding that tshark shows beside the fields, and what it says of the packet itself.
PASSED_OVER = re.compile(r"(oer|per|frame|user_dlt)(\.|$)")
READER = 'uat:user_dlts:"User 0 (DLT=147)","ieee1609dot2.data","0","","0",""'


def flat(pairs, depth=0):
    """Fields with their depth, in the order in which tshark prints them; each as 'name value' or 'name'."""
    found = []
    for name, value in pairs:
        if PASSED_OVER.match(name) or name.endswith("_raw"):
            continue
        if re.fullmatch(r"Item \d+", name):
            found += flat(value, depth)
            continue
        name = name.removeprefix(BEGINNING).removesuffix("_element")
        if name.endswith("_tree"):
            found += flat(value, depth + 1)
        elif isinstance(value, list):
            found.append((depth, name))
            found += flat(value, depth + 1)
        else:
            found.append((depth, f"{name} {value}".rstrip()))
    return found


def octet_count(layers):
    """Of how many octets the whole is, for tshark."""
    return dict(layers).get(f"{BEGINNING}Ieee1609Dot2Data_element_raw", [None, 0, 0])[2]


def packets(octets):
    """The fields that tshark prints of each, given as hexadecimal digits, and of how many octets they are."""
    with tempfile.TemporaryDirectory() as room:
        with open(f"{room}/octets", "w") as file:
            file.writelines("000000 " + " ".join(re.findall("..", it)) + "\n\n" for it in octets)
        subprocess.run(["text2pcap", "-l", "147", f"{room}/octets", f"{room}/packets"], check=True, capture_output=True)
        words = ["tshark", "-r", f"{room}/packets", "-o", READER, "-T", "json", "-x"]
        said = subprocess.run(words, check=True, capture_output=True, text=True).stdout
    # As pairs, since a field that stands twice has to be kept twice.
    frames = json.loads(said, object_pairs_hook=lambda pairs: pairs)
    all_layers = [dict(dict(frame)["_source"])["layers"] for frame in frames]
    return [(flat(layers), octet_count(layers)) for layers in all_layers]


def spelled(value):
    """A value of a table as tshark writes it: octets that count up from one to another are written A..B there."""
    run = re.fullmatch(r"([0-9a-f]{2})\.\.([0-9a-f]{2})", value)
    if not run:
        return value
    first, last = int(run[1], 16), int(run[2], 16)
    return ":".join(f"{(first + at) % 256:02x}" for at in range((last - first) % 256 + 1))


def digits(text):
    return "".join(text.split())


class Table:
    """What tshark is to print of a sample: its fields, and where it can't follow."""

    def __init__(self):
        self.fields, self.others = [], []

    def take(self, depth, text, blocks):
        """Takes a line."""
        if text.startswith("@"):
            self.fields += [(depth + down, *more) for down, *more in blocks[text].fields]
            return
        said, *known = (it.strip() for it in text.split("||"))
        if said.startswith("?"):
            old, _, new = said[1:].partition(">")
            self.others.append((digits(old), digits(new), *known))
            return
        name, _, value = said.partition(" ")
        self.fields.append((depth, f"{name} {spelled(value)}".rstrip(), *known))

    def shown(self, octets):
        """The octets to be shown in the place of a sample's."""
        for old, new, _ in self.others:
            octets = octets.replace(old, new)
        return octets

    def difference(self, octets, shown, count):
        """The first field of the octets that isn't as wanted, if one isn't, and where tshark can't follow."""
        known = [f"{old} is shown as {new}. {why}" for old, new, why in self.others]
        wanted = [(0, "Ieee1609Dot2Data"), *((depth + 1, *more) for depth, *more in self.fields)]
        for at, (depth, field, *more) in enumerate(wanted):
            got = shown[at] if at < len(shown) else (0, "no more")
            if more and got != (depth, field):
                there = digits(more[0].removeprefix("octets")) in octets
                return None if there else f"no {more[0]}", [*known, f"{field}: {more[1]}"]
            if got != (depth, field):
                return f"wanted {field!r} at depth {depth}, tshark has {got[1]!r} at {got[0]}", known
        beyond = shown[len(wanted) :]
        if beyond:
            return f"tshark has more: {beyond[:3]}", known
        left = len(octets) // 2 - count
        return f"tshark leaves {left} octets" if left else None, known


def octets_by_hand(folder):
    """The octets of each sample that stand there: runs are written as in tables, a sample's octets by its name."""
    found, name = {}, None
    for file in sorted(folder.glob("*.octets.txt")):
        for line in file.read_text().splitlines():
            words = line.partition("#")[0].split()
            if words and line[0] != " ":
                name = words.pop(0)
            if words:
                found[name] = found.get(name, "") + "".join(found.get(it, spelled(it).replace(":", "")) for it in words)
    return found


def tables(folder):
    """The table of each sample."""
    samples, blocks, table = {}, {}, None
    for file in sorted(folder.glob("*.fields.txt")):
        for line in file.read_text().splitlines():
            text = line.strip()
            depth = (len(line) - len(line.lstrip())) // 2 - 1
            if not text or text.startswith("#"):
                continue
            if depth < 0:
                table = (blocks if text.startswith("@") else samples).setdefault(text, Table())
            else:
                table.take(depth, text, blocks)
    return samples
