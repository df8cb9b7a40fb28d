"""Cuts an LLVM module, as text, into parts that are compiled side by side. It knows of the text what clang prints: that a function begins with a line
`define .. {` and ends with a line `}`, and that a value stands in one line, `@NAME = ..`."""

import collections
import re

FUNCTION = re.compile(r"^define [^\n]*\{\n.*?^\}\n", re.M | re.S)
VALUE = re.compile(r"^@(\"[^\"]*\"|[\w.$-]+) = [^\n]*\n", re.M)
NAME = re.compile(r"@(\"[^\"]*\"|[\w.$-]+)")
# A variable, which has to be one for all parts; of a constant each part has its own.
VARIABLE = re.compile(r"= private global (\[[^\]]*\]|\S+) [^,\n]*")
# What only its own part may name.
SHARED = re.compile(r"(define|=) (?:internal|private)")
# A function of at most so many lines is compiled in each part that calls it, where it may be inlined. Of a longer one there is one, for all.
SHORT = 200


class Module:
    """The functions and the values that `main` reaches, in the order in which it does, and the rest of the text."""

    def __init__(self, text):
        self.functions = {NAME.search(it[0])[1]: it[0] for it in FUNCTION.finditer(text)}
        text = FUNCTION.sub("", text)
        self.texts = self.functions | {it[1]: it[0] for it in VALUE.finditer(text)}
        self.frame = VALUE.sub("", text)
        self.names, self.named, work = {}, collections.Counter(), ["main"]
        while work:
            name = work.pop()
            if name not in self.names:
                self.names[name] = [it for it in dict.fromkeys(NAME.findall(self.texts[name])) if it in self.texts and it != name]
                self.named.update(self.names[name])
                work += self.names[name]
        self.lines = {it: self.texts[it].count("\n") for it in self.names if it in self.functions}

    def homes(self, parts):
        """The part in which each function is compiled, if it is not short: that of its caller, if that is one."""
        found, done, whole = {}, 0, sum(self.lines.values())
        for it in self.lines:
            part, work = min(parts - 1, done * parts // whole), [it]
            while work:
                name = work.pop()
                if name not in found:
                    found[name] = part
                    done += self.lines[name]
                    work += [it for it in self.names[name] if it in self.lines and self.named[it] == 1]
        return found

    def needed(self, own):
        """What a part has that compiles these functions, and what it takes from other parts."""
        has, taken, work = dict.fromkeys(own), {}, list(own)
        while work:
            for it in self.names[work.pop()]:
                is_one_for_all = self.lines[it] > SHORT if it in self.lines else VARIABLE.search(self.texts[it])
                if is_one_for_all and it not in has:
                    taken[it] = None
                elif it not in has:
                    has[it] = None
                    work.append(it)
        return has, taken


def cut(text, parts):
    """The texts of so many parts."""
    module = Module(text)
    homes = module.homes(parts)
    needed = [module.needed([it for it, home in homes.items() if home == part]) for part in range(parts)]
    shared = dict.fromkeys(it for _, taken in needed for it in taken)
    for part, (has, taken) in enumerate(needed):
        made = [module.frame]
        # The first part has the variables.
        for it in [*has, *(it for it in shared if part == 0 and it not in homes)]:
            is_shared = it in shared and homes.get(it, 0) == part
            made.append(SHARED.sub(r"\1 hidden", module.texts[it], count=1) if is_shared else module.texts[it])
        for it in taken:
            if it in homes:
                made.append(module.texts[it].partition("\n")[0].replace("define internal", "declare hidden", 1).rstrip("{") + "\n")
            elif part > 0:
                made.append(VARIABLE.sub(r"= external hidden global \1", module.texts[it]))
        yield "".join(made)
