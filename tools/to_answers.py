#!/usr/bin/env python3
"""Turns the proofs that walk the code (proofs/F/Proof.antt, after port.py and respell.py) to today's Invariants.antt and Answers.antt.

usage: tools/to_answers.py NAMES CRATE..     at the top of the repository; NAMES is the folder that `rt names NAMES` wrote

An answer that is `search rules` alone is left out, since the check tries that itself. What could not be turned is printed, and marked TODO in the file.
"""
import json
import os
import re
import sys

ID = r"[^\W\d][\w'₀-₉-]*"
DECL = re.compile(r"^(?:(?:abbrev|unfoldable|pub) )*(%s)(?: \{[^}]*\})? :" % ID)
PATH = re.compile(r"(?<![\w'.-])(%s)((?:\.[\w'-]+)+)" % ID)


def norm(name):
    return name.replace("-", "_")


class Turn:
    def __init__(self, crate, folder, names):
        self.crate, self.folder, self.names = crate, folder, names
        self.path = f"crates/{crate}/proofs/{folder}/Proof.antt"
        self.module = f"Rattle.{crate}.proofs." + folder.replace("/", ".")
        self.places = {p[0]: p for p in names["places"]}
        self.arms = {p[0]: a for p, a in zip(names["places"], names["arms"]) if a}
        self.todo = []
        self.needs = {}
        for (old, new), (place, _) in zip(names["needs"], names["asked_at"]):
            self.needs[norm(old)] = (new, place)

    def say(self, text):
        self.todo.append(text)

    # ---- the file's parts

    def blocks(self, text):
        lines = text.split("\n")
        head, i = [], 0
        while i < len(lines) and (lines[i].startswith(("--", "use ")) or not lines[i].strip()):
            head.append(lines[i])
            i += 1
        blocks, pending = [], []
        while i < len(lines):
            line = lines[i]
            m = DECL.match(line)
            if m and not line.startswith(" "):
                blocks.append([m[1], pending + [line]])
                pending = []
            elif line.startswith("--") or (not line.strip() and not blocks):
                pending.append(line)
            elif blocks:
                blocks[-1][1] += pending + [line]
                pending = []
            i += 1
        return head, blocks

    # ---- paths

    def resolve(self, place, fields):
        """The new path of these fields behind a place; or a place alone. A step is found by its name, which no other has: how many steps there are
        between two differs between the kits."""
        deep = 0
        while fields and fields[0] == "before":
            fields, deep = fields[1:], deep + 1
        if not fields:
            return ("place", place, deep)
        first, rest = norm(fields[0]), fields[1:]
        if first in ("args", "requires", "ranges"):
            return ("path", ".".join(["c", first] + rest))
        at = self.places.get(place)
        while at is not None:
            found = self.in_arm(at[0], first, rest)
            if found:
                return found
            if norm(at[2][0]).lower() in (first.lower(), re.sub("_lem$", "", first)):
                return ("path", ".".join(["c", at[2][1]] + self.fields(at, rest)))
            at = self.places.get(at[1])
        return None

    def in_arm(self, place, first, rest):
        """What an arm of a `match` says goes by the pattern's names now."""
        step, _, parts = self.arms.get(place, ("", 0, []))
        for name, old, path in sorted(parts, key=lambda p: -len(p[2])):
            if norm(old) == first and rest[: len(path)] == path:
                return ("path", ".".join(["c", step, name] + rest[len(path) :]))
        return None

    def fields(self, at, rest):
        """`.new.1.0` of a call goes by the parameter's name now."""
        rest = ["type_inv" if r == "type-inv" else r for r in rest]
        if rest and at[2][0].startswith(("if", "loop")):
            rest[0] = {"taken": "true", "left": "false"}.get(rest[0], rest[0])
        if rest[:1] == ["new"] and at[3]:
            params = self.names["params"].get(at[3], [])
            i, k = 1, 0
            while i < len(rest) and rest[i] == "1":
                i, k = i + 1, k + 1
            if i < len(rest) and rest[i] == "0" and k < len(params):
                return ["new", params[k]] + rest[i + 1 :]
        return rest

    def turn_paths(self, body, place):
        """The body with each path from `c`, or from a name that `let` gives a record before, turned."""
        alias, behind = {"c": place}, {"c": 0}
        out, i = "", 0
        binding = re.compile(r"let (%s) = (%s)((?:\.[\w'-]+)*) in\b" % (ID, ID))
        while i < len(body):
            m = binding.match(body, i)
            if m and m[2] in alias and (m[3] or m[2] != "c"):
                got = self.resolve(alias[m[2]], m[3].split(".")[1:])
                if got and got[0] == "place":
                    alias[m[1]], behind[m[1]] = got[1], behind[m[2]] + got[2]
                    i = m.end()
                    while i < len(body) and body[i] == " ":
                        i += 1
                    # the line of the `let` goes
                    if i < len(body) and body[i] == "\n" and not out.rsplit("\n", 1)[-1].strip():
                        out = out.rsplit("\n", 1)[0]
                    continue
            m = PATH.match(body, i)
            if m and m[1] in alias and (i == 0 or not re.match(r"[\w'.-]", body[i - 1])):
                got = self.resolve(alias[m[1]], m[2].split(".")[1:])
                if got and got[0] == "path":
                    out += got[1]
                elif got:
                    out += "c" + ".before" * (behind[m[1]] + got[2])
                    self.say(f"a whole place {m[0]}")
                else:
                    out += m[0]
                    self.say(f"path {m[0]} at {alias[m[1]]}")
                i = m.end()
                continue
            m = re.compile(ID).match(body, i)
            if m:
                if m[0] in alias and m[0] != "c":
                    self.say(f"alias {m[0]} alone")
                    out += "c" + ".before" * behind[m[0]]
                else:
                    out += m[0]
                i = m.end()
                continue
            out += body[i]
            i += 1
        return out

    # ---- a loop's invariant and measure

    def loop(self, kind, name, lines):
        old = name[len(kind) + 1 :]
        for (pair, variables), changed in zip(self.names["loops"], self.names["changed"]):
            if norm(pair[0]) == norm(old):
                break
        else:
            self.say(f"no loop {name}")
            return lines
        text = "\n".join(lines[1:])
        m = re.match(re.escape(name) + r"((?: [^\s=]+)*) =", text)
        if not m:
            self.say(f"form of {name}")
            return lines
        patterns, body = m[1].split(), text[m.end() :]
        late = [v for v, c in zip(variables, changed) if c]
        if len(patterns) != len(variables) + len(late):
            self.say(f"{name}: {len(patterns)} names for {variables} and {late}")
            return lines
        table = {p: ("l.initial." if c else "l.") + v for p, v, c in zip(patterns, variables, changed)}
        table.update({p: "l." + v for p, v in zip(patterns[len(variables) :], late)})
        body = re.sub(r"(?<![\w'.-])" + ID, lambda t: table.get(t[0], t[0]), body)
        new = f"{kind}-{pair[1]}"
        return [f"abbrev pub {new} : goal.{new}", f"{new} l ={body}".rstrip()]

    # ---- the whole file

    def run(self):
        with open(self.path, encoding="utf-8") as f:
            text = f.read()
        head, blocks = self.blocks(text)
        comments = [l for l in head if l.startswith("--")]
        uses = [l for l in head if l.startswith("use ") and not re.search(r"\.(Statement\.\{statement\}|Tie as tie)$", l)]
        invariants, answers, renamed, helpers = [], [], {}, []
        turned = []
        for name, lines in blocks:
            signature = lines[[i for i, l in enumerate(lines) if DECL.match(l)][0]]
            if re.search(r": tie\.(invariant|decreases)-", signature):
                kind = re.search(r": tie\.(invariant|decreases)-", signature)[1]
                invariants.append("\n".join(self.loop(kind, name, lines)))
                continue
            m = re.search(r": tie\.(Need-[^\s]+)", signature)
            if m:
                need = norm(m[1][5:])
                found = None
                for key in (need, re.sub(r"^overflow_", "", need), norm(name)):
                    if key in self.needs:
                        found = self.needs[key]
                        break
                turned.append((name, lines, found))
                if found:
                    renamed[name] = found[0]
                elif "slice_aggregate" in need:
                    turned.pop()  # the check settles it now
                else:
                    self.say(f"no goal for {name}")
                continue
            if name.endswith("_spec") and ": {M : Type 1}" in signature:
                continue
            helpers.append("\n".join(lines))
            if "tie." in "\n".join(lines):
                self.say(f"helper {name} speaks of the tie")
        order = {norm(old): i for i, (old, _) in enumerate(self.names["needs"])}
        for name, lines, found in turned:
            body = "\n".join(lines)
            if not found:
                answers.append("-- TODO\n" + body)
                continue
            new, place = found
            at = [i for i, l in enumerate(lines) if DECL.match(l)][0]
            rest = "\n".join(lines[at + 1 :])
            m = re.search(r"^" + re.escape(name) + r" (\S+)((?: κs)?) =", rest, re.M)
            if not m:
                self.say(f"form of {name}")
                answers.append("-- TODO\n" + body)
                continue
            before, after = rest[: m.start()], rest[m.end() :]
            is_cited = any(re.search(r"(?<![\w'.-])" + re.escape(name) + r"(?![\w'-])", "\n".join(others)) for other, others, _ in turned if other != name)
            if after.strip() == "search rules" and not before.strip() and not is_cited:
                continue
            if m[1] != "c" and m[1] != "_":
                self.say(f"{name} binds {m[1]}")
            after = self.turn_paths(after, place)
            # `if !x` says of x what holds, and no longer of `not x`.
            after = re.sub(r"not-(?:false|true) (?:_|[A-Za-z][\w'.-]*) (c\.if-not-[\w-]+\.(?:true|false))", r"\1", after)
            after = re.sub(r"\((c\.if-not-[\w-]+\.(?:true|false))\)", r"\1", after)
            after = re.sub(r"(?<![\w'.-])" + ID, lambda t: renamed.get(t[0], t[0]), after)
            if re.search(r"\bκs\b", after):
                self.say(f"{name}: κs")
            top = lines[:at]
            answers.append("\n".join(top + [f"pub {new} : goal.{new}"] + ([before.rstrip()] if before.strip() else []) + [f"{new} {m[1]} ={after}".rstrip()]))
        folder = os.path.dirname(self.path)
        os.remove(self.path)
        if invariants:
            self.write(folder, "Invariants", [] if answers or helpers else comments, uses, "Given", invariants)
        if answers or helpers:
            self.write(folder, "Answers", comments, uses, "Goals", helpers + answers)
        elif comments and not invariants and not os.listdir(folder):
            os.rmdir(folder)
        return self.todo

    def write(self, folder, kind, comments, uses, module, parts):
        lines = comments + uses + [f"use {self.module}.{module} as goal"]
        with open(f"{folder}/{kind}.antt", "w", encoding="utf-8") as f:
            f.write("\n".join(lines) + "\n\n" + "\n\n".join(p.strip("\n") for p in parts) + "\n")


def main():
    names = sys.argv[1]
    for crate in sys.argv[2:]:
        with open(f"{names}/crates/{crate}/names.json", encoding="utf-8") as f:
            listed = json.load(f)
        done = 0
        for top, _, found in sorted(os.walk(f"crates/{crate}/proofs")):
            if "Proof.antt" not in found:
                continue
            folder = os.path.relpath(top, f"crates/{crate}/proofs")
            key = f"Rattle-{crate}-proofs." + folder.replace("/", ".") + ".Lts"
            if key not in listed:
                print(f"{crate}/{folder}: no names")
                continue
            todo = Turn(crate, folder, listed[key]).run()
            done += 1
            for text in todo:
                print(f"{crate}/{folder}: {text}")
        print(f"{crate}: {done} turned")


main()
