#!/bin/sh
# Which names in backquotes in README.md, docs/*.md and the crates' README.md are dead: files and folders, crates,
# crate::item, definitions behind the file that they stand in, cases of kap_cases, and any other word with an underscore
# or an inner capital; of a crate's page also the modules of `specs/` that it lists. Prints each with its place, and last
# their number. Run by hand: sh bench/alive.sh [PAGE..]
cd "$(dirname "$0")/.." || exit 1
exec python3 - "$@" <<'PYTHON'
import glob, os, re, subprocess, sys

pages = sys.argv[1:] or ["README.md"] + sorted(glob.glob("docs/*.md")) + sorted(glob.glob("crates/*/README.md"))
listed = subprocess.run(["git", "ls-files", "-co", "--exclude-standard"], capture_output=True, text=True).stdout
files = [f for f in listed.split("\n") if f and os.path.exists(f)]
folders = {"/".join(f.split("/")[:n]) for f in files for n in range(1, f.count("/") + 1)}
crates = {f.split("/")[1] for f in files if f.startswith("crates/") and f.count("/") > 1}


def words_in(names):
    text = []
    for name in names:
        try:
            text.append(open(name, encoding="utf-8", errors="replace").read())
        except OSError:
            pass
    return set(re.findall(r"\w+", "\n".join(text)))


code = [f for f in files if f.endswith((".rt", ".antt", ".edit", ".sh")) or f in ("crates.txt", "HANDLES")]
words = words_in(code) | crates
by_crate = {c: words_in([f for f in code if f.startswith("crates/%s/" % c)]) for c in crates}
with open("crates/kap_cases/stdin", encoding="utf-8", errors="replace") as cases:
    names = {line[2:].rstrip("\n") for line in cases if line.startswith("= ")}
kit = set()
for folder in glob.glob("/opt/*/rlibs") + glob.glob("/opt/*/rattle/rlibs"):
    kit |= {os.path.splitext(name)[0] for name in os.listdir(folder)}


def paths_of(token):
    """The files or folders that the token names: from the top, below crates/, or by the end of their paths."""
    token = token.rstrip("/")
    for path in (token, "crates/" + token):
        if path in files or path in folders:
            return [path]
    return [f for f in files + sorted(folders) if f.endswith("/" + token)]


def is_dead(token, stands_in):
    """The token looks like a name of the tree and is none; `stands_in` are the files named just before it."""
    if re.fullmatch(r"[\w.*-]+(/[\w.*-]+)*/?", token) is None and "::" not in token:
        return False
    token = token.replace("NAME", "*")
    if "*" in token:
        return "/" in token and not any(glob.glob(top + token) for top in ("", "crates/", "crates/*/"))
    if re.fullmatch(r"[\w.-]+\.(rt|antt|md|sh|py|edit|txt)", token) or "/" in token:
        return token not in names and not paths_of(token)
    if "::" in token:
        parts = re.findall(r"\w+", token)
        known = by_crate.get(parts[0], words)
        if parts[0] in kit or parts[0] in ("std", "core", "alloc"):
            return False
        return parts[0] not in words or not all(p in known for p in parts[1:])
    if re.fullmatch(r"\w+", token) is None:
        return False
    if stands_in:
        return token not in words_in(stands_in)
    named = "_" in token or re.search(r"[a-z][A-Z]", token)
    return bool(named) and token not in words and token not in kit


def modules_of(page, text):
    """Of a crate's page the places and names of modules of `specs/`: in the table's first column, and words in Laws."""
    if re.fullmatch(r"crates/\w+/README.md", page) is None or "| `specs/` |" not in text:
        return
    for number, line in enumerate(text.split("\n"), 1):
        if line.startswith("| `") and not line.startswith("| `specs/` |"):
            yield from ((number, name) for name in re.findall(r"`(\w+)`", line.split("|")[1]))
        elif not line.startswith("|"):
            yield from ((number, name) for name in re.findall(r"`(\w+Laws)`", line))


# names of Kapacitor's that pages name as left out
foreign = {"movingAverage", "holtWinters", "stateDuration", "httpPost", "httpOut", "influxDBOut"}
token_of = re.compile(r"(?<!`)`([^`\n]+)`(?!`)|(?<![\w/`])((?:[\w-]+/)+[\w.-]+\.(?:rt|antt|md|sh))")
dead = 0
for page in pages:
    text = open(page, encoding="utf-8").read()
    text = re.sub(r"^```.*?^```", lambda block: re.sub(r"[^\n]", " ", block.group()), text, flags=re.M | re.S)
    for number, name in modules_of(page, text):
        if not os.path.exists("%s/specs/%s.antt" % (os.path.dirname(page), name)):
            dead += 1
            print("%s:%d: %s is no module of specs/" % (page, number, name))
    stands_in, end = [], 0
    for span in token_of.finditer(text):
        token = span.group(1) or span.group(2)
        if re.fullmatch(r"\s*(,|and|, and|)\s*", text[end:span.start()]) is None:
            stands_in = []
        end = span.end()
        if token not in foreign and is_dead(token, stands_in):
            dead += 1
            line = text.count("\n", 0, span.start()) + 1
            print("%s:%d: %s%s" % (page, line, token, " isn't in " + stands_in[0] if stands_in else ""))
        if token.endswith((".antt", ".rt")):
            stands_in = paths_of(token)
print("dead: %d" % dead)
PYTHON
