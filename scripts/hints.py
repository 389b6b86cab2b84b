"""Reads the hints to inline of a crate's functions, each with the function's path as LLVM's modules have it."""
import re

# the words that matter, in the order of the text
WORD = re.compile(r"#\[(inline(?:\([a-z]+\))?|cold)\]|\bimpl\b|\btrait\s+(\w+)|\bfn\s+(\w+)|\{|\}")
COMMENT = re.compile(r"//[^\n]*|/\*.*?\*/", re.S)


def without_arguments(text):
    """The text without what stands in angle brackets."""
    kept, depth = "", 0
    for before, it in zip(" " + text, text):
        if it == "<":
            depth += 1
        elif it == ">" and before not in "-=":
            depth -= 1
        elif depth == 0:
            kept += it
    return kept


def type_name(text):
    """The name of a type, in capital letters at its parts' heads."""
    found = re.match(r"(?:&\s*(?:'\w+\s*)?(?:mut\s+)?)?((?:\w+::)*\w+)", text.strip())
    return "".join(it[:1].upper() + it[1:] for it in found[1].split("::")) if found else ""


def impl_name(head):
    """By what name an impl's functions go, from the text between `impl` and its brace."""
    head = re.sub(r"\bwhere\b.*", "", head, flags=re.S).strip()
    if head.startswith("<"):
        depth = 0
        for at, it in enumerate(head):
            depth += (it == "<") - (it == ">" and head[at - 1] not in "-=")
            if depth == 0:
                head = head[at + 1 :]
                break
    plain = without_arguments(head)
    if not re.search(r"\bfor\b", plain):
        return type_name(plain)
    trait, own = map(type_name, re.split(r"\bfor\b", plain, maxsplit=1))
    given = re.match(r"\s*(?:\w+::)*\w+\s*<(.*?)>+\s+for\b", head, flags=re.S)
    given = [it.strip() for it in given[1].split(",") if not it.strip().startswith("'")] if given else []
    names = [type_name(it) for it in given if re.match(r"[A-Za-z&]", it)]
    return own + trait + ("".join(names) if all(names) else "")


def hints_in(text, path):
    """The hints of one file, whose functions' path begins so."""
    found, scopes, depth, at, hint = [], [], 0, 0, None
    while word := WORD.search(text, at):
        at = word.end()
        if word[1]:
            hint = word[1]
        elif word[0] == "{":
            depth += 1
        elif word[0] == "}":
            depth -= 1
            while scopes and scopes[-1][0] > depth:
                scopes.pop()
        elif word[3]:
            if hint:
                found.append(("::".join([*path, *[name for _, name in scopes[-1:] if name], word[3]]), hint))
            hint = None
        elif word[2] or re.search(r"([};\]]|unsafe)$", text[: word.start()].rstrip() or ";"):
            brace = text.find("{", at)
            if brace >= 0:
                scopes.append((depth + 1, word[2] or impl_name(text[at:brace])))
                at = brace
    return found


def hints_of(crate, folder):
    """Path and hint of each function of the crate that has one."""
    found = []
    for file in sorted(folder.rglob("*.rt")):
        inside = [it for it in file.relative_to(folder).with_suffix("").parts if it not in ("lib", "main", "mod")]
        found += hints_in(COMMENT.sub("", file.read_text(encoding="utf-8")), [crate, *inside])
    return found
