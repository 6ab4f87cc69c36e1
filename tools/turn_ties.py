#!/usr/bin/env python3
"""Brings the proofs by hand of one crate (proofs/F/Proof.antt, over F's Tie) to the names that today's Rattle makes.

usage: turn_ties.py NAMES CRATE [FUNCTION..]
NAMES is the names.json that `rt check --generated DIR --old-names` writes in the crate, CRATE the crate's folder.
It renames goals, places and steps, writes the last definition anew (each goal in today's order, `search rules` where the file had none),
and leaves out of it the answers to goals that are no more. Run it once on a file: a second run takes new names for old ones.
"""
import json, os, re, subprocess, sys

BASE = os.environ.get("BASE")
IDENT = r"[^\s(){}.;,@\"«»\[\]\\]+"
PRE = ("overflow-", "nonzero-")

def norm(x):
    return re.sub("-+", "-", x.replace("_", "-"))

def keys(old):
    n = norm(old)
    yield n
    m = re.match(r"(add|sub|mul|shl|shr|cast|step)(-.*)$", n)
    if m:
        yield "overflow-" + n
    if n.startswith("index-"):
        yield "bounds-" + n[6:]
    m = re.match(r"(div|rem)(-.*)$", n)
    if m:
        yield "nonzero-" + n

def load(path):
    out = {}
    for k, v in json.load(open(path)).items():
        m = re.match(r"Rattle-\w+-proofs\.(.*)\.Lts$", k)
        if m:
            out[m[1].replace(".", "/")] = v
    return out

def settled(out, tests):
    if out[-1] != "before":
        out = [w for w in out if w != "before"]
    return [tests.get((out[i - 1], w), w) if i else w for i, w in enumerate(out)]

def params_of(crate, f):
    """The parameters of a function, in their order."""
    parts = f.split("/")
    for folder, _, files in os.walk(os.path.join(crate, "src")):
        for n in files:
            mod = n[:-3]
            if len(parts) > 1 and mod != parts[-2] and mod not in ("lib", "main"):
                continue
            t = open(os.path.join(folder, n)).read()
            m = re.search(r"\bfn " + re.escape(parts[-1]) + r"\b(?:<[^>]*>)?\(([^)]*)\)", t)
            if m:
                return re.findall(r"(?:^|,)\s*(?:mut )?(\w+):(?!:)", m[1])
    return []

def short_of(f):
    return f.rsplit("/", 1)[-1]

def turn(text, names, f, params):
    needs = {}
    for old, new in names["needs"]:
        for k in keys(old):
            needs.setdefault(k, new)
    news = {new for _, new in names["needs"]}
    for n in news:
        needs.setdefault(norm(n), n)
    places, steps = {}, {}
    for i, p in enumerate(names["places"]):
        places.setdefault(norm(p[0]), names["places_by_name"][i])
        o, n = p[2]
        if o:
            steps.setdefault(norm(o), n)
    loops = {}
    words = set()
    for (o, n), vs in names["loops"]:
        loops[norm(o)] = n
        words.update(vs)
    tests = {}
    for p in names["places"]:
        for old, new in p[4] or []:
            tests[(p[2][1], old)] = new
    newsteps = set(steps.values())
    newplaces = set(names["places_by_name"])
    missing = []

    def tie(m):
        w = m[1]
        if w.startswith("Need-"):
            x = w[5:]
            if x in news and norm(x) not in needs:
                return m[0]
            k = norm(x)
            if k in needs:
                return "tie.Need-" + needs[k]
            if x in news:
                return m[0]
            missing.append(w)
            return m[0]
        for pre in ("invariant-", "decreases-"):
            if w.startswith(pre):
                k = norm(w[len(pre):])
                if k in loops:
                    return "tie." + pre + loops[k]
                return m[0]
        if w == "MeasureT-loop":
            return m[0]
        k = norm(w)
        if w in newplaces and k not in places:
            return m[0]
        if k in places:
            return "tie." + places[k]
        if w not in ("spec", "close") and w not in newplaces:
            missing.append(w)
        return m[0]

    text = re.sub(r"(?<![\w.])tie\.(" + IDENT + ")", tie, text)

    def path(m):
        parts = m[0].split(".")
        out = [parts[0]]
        for i, w in enumerate(parts[1:], 1):
            prev = parts[i - 1]
            head = i == 1 or prev == "before"
            if w == "inv":
                w = "invariant"
            elif w == "pre":
                w = "requires"
            elif w == "taken":
                w = "true"
            elif w == "left":
                w = "false"
            elif w == "branch":
                w = "branch-raw"
            elif w == "auto" and "kept" in words:
                w = "kept"
            elif head and norm(w) in steps and prev not in ("args", "new") and not (prev not in ("c", "before") and w in words | set(params)):
                w = steps[norm(w)]
            elif "-" in w and w.replace("-", "_") in words:
                w = w.replace("-", "_")
            elif re.fullmatch(r"t\d+", w) and 0 < int(w[1:]) <= len(params) and w not in params:
                w = params[int(w[1:]) - 1]
            out.append(w)
        return ".".join(settled(out, tests))

    code = []
    for line in text.split("\n"):
        if line.lstrip().startswith("--") or line.startswith("use "):
            code.append(line)
        else:
            code.append(re.sub(r"(?<![\w.])(?:" + IDENT + r"|(?<=\)))(?:\." + IDENT + ")+", lambda m: m[0] if m[0].startswith("tie.") else path(m), line))
    text = "\n".join(code)
    # the steps of an expression in parentheses
    text = aliases(text)
    text = re.sub(r"\)((?:\." + IDENT + ")+)", lambda m: ")" + path_after(m[1], steps, words, tests), text)
    text = last_values(text, names)
    # the last definition
    m = re.search(r"(?ms)^pub (\S+) : (\{M : Type 1\} → statement M)\n.*\Z", text)
    if not m:
        return text, ["no last definition"]
    head = text[: m.start()]
    defs = dict((b, a) for a, b in re.findall(r"(?m)^(\S+) : tie\.Need-(" + IDENT + ")", head))
    invs = dict((b, a) for a, b in re.findall(r"(?m)^abbrev (\S+) : tie\.((?:invariant|decreases)-" + IDENT + ")", head))
    params = re.search(r"tie\.Need-\S+([^\n]*)$", head, re.M)
    args, extra = [], []
    inv_args = []
    for (o, n), vs in names["loops"]:
        for pre in ("invariant-", "decreases-"):
            if pre + n in invs:
                inv_args.append(invs[pre + n])
            else:
                missing.append(pre + n)
    rec = re.findall(r"(?m)^abbrev (\S+) : tie\.(measure\S*|decreases\S*)", head)
    applied = (" " + " ".join(inv_args)) if inv_args else ""
    for old, new in names["needs"]:
        if new in defs:
            args.append(defs[new])
        else:
            name = "the-" + new
            extra.append(f"{name} : tie.Need-{new}{applied}\n{name} c = search rules\n")
            args.append(name)
    gone = [b for b in defs if b not in news]
    last = f"pub {short_of(f)}_spec : {m[2]}\n{short_of(f)}_spec = tie.close (tie.spec" + "".join("\n    " + a for a in inv_args + args) + ")\n"
    if not (inv_args + args):
        last = f"pub {short_of(f)}_spec : {m[2]}\n{short_of(f)}_spec = tie.close tie.spec\n"
    if extra and not re.search(r"(?m)^use borrow.Author.Rules", head):
        head = re.sub(r"(?m)^use ", "use borrow.Author.Rules.{rules}\nuse ", head, count=1)
    text = head + "\n".join(extra) + ("\n" if extra else "") + last
    return text, [f"missing {x}" for x in sorted(set(missing))] + [f"gone {x}" for x in gone] + [f"extra {e.split(' ')[0]}" for e in extra]

def path_after(t, steps, words, tests):
    parts = t.split(".")[1:]
    out = []
    for i, w in enumerate(parts):
        prev = parts[i - 1] if i else ""
        if w == "inv": w = "invariant"
        elif w == "pre": w = "requires"
        elif w == "taken": w = "true"
        elif w == "left": w = "false"
        elif (i == 0 or prev == "before") and norm(w) in steps: w = steps[norm(w)]
        elif "-" in w and w.replace("-", "_") in words: w = w.replace("-", "_")
        out.append(w)
    return "".join("." + w for w in settled(out, tests))

def signature(path):
    """The parameters of a function `crate::mod::f`, from its source beside this crate."""
    parts = path.split("::")
    return params_of(os.path.join(CRATES, parts[0]), "/".join(parts[1:]))


def last_values(text, names):
    """What a call leaves in its arguments has the parameter's name now: .new.1.1.0 is .new.third."""
    callee = {p[2][1]: p[3] for p in names["places"] if p[3]}

    def named(m):
        step, n = m[1], m[3].count("1")
        if step not in callee:
            a = re.findall(r"let " + re.escape(step) + r" = \S*?\.?([^\s.]+) in", text)
            a = [x for x in a if x in callee]
            if not a:
                return m[0]
            path = callee[a[0]]
        else:
            path = callee[step]
        ps = signature(path)
        return f"{step}.new.{ps[n]}" if n < len(ps) else m[0]

    return re.sub(r"([^\s(){}.;,]+)\.(new|last)((?:\.1)*)\.0(?![\w-])", named, text)


def aliases(text):
    """A local name for an earlier place that only gives fields is a name for the place itself: its fields are found from there."""
    parts = re.split(r"(?m)(?=^\S)", text)
    for i, t in enumerate(parts):
        for _ in range(6):
            for m in re.finditer(r"let (\S+) = (" + IDENT + r")((?:\.before)+) in", t):
                name = re.escape(m[1])
                rest = t[: m.start()] + t[m.end() :]
                uses = re.findall(r"(?<![^\s(){},;\[\]])" + name + r"(?:\.before)*(?=$|[\s(){};,\[\]])", rest, re.M)
                bound = re.findall(r"(?<![^\s(){},;\[\]])let " + name + " =", t)
                # a use as the head of another alias counts as a field
                if len(bound) == 1 and not uses:
                    t = t[: m.start()] + f"let {m[1]} = {m[2]} in" + t[m.end() :]
                    break
            else:
                break
        parts[i] = t
    return "".join(parts)

def main(argv):
    global CRATES
    names, crate, only = load(argv[0]), argv[1], argv[2:]
    CRATES = os.path.dirname(os.path.abspath(crate))
    for folder, _, files in sorted(os.walk(os.path.join(crate, "proofs"))):
        if "Proof.antt" not in files:
            continue
        f = os.path.relpath(folder, os.path.join(crate, "proofs"))
        if only and f not in only:
            continue
        if f not in names:
            print(f"{crate} {f}: no names")
            continue
        p = os.path.join(folder, "Proof.antt")
        t = subprocess.run(["git", "show", f"{BASE}:./{p}"], capture_output=True, text=True).stdout if BASE else open(p).read()
        n, said = turn(t, names[f], f, params_of(crate, f))
        if n != t:
            open(p, "w").write(n)
        print(f"{f}: {'; '.join(said) or 'ok'}")

main(sys.argv[1:])
