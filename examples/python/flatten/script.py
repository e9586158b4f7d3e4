"""Writes code as a script of the program `cvl`, with its inputs.

A script runs from its first line to its last, so blocks run even without iterations, and functions stand where they are called;
a function that calls itself has no script. Calls that scripts do not have are made of others.
"""

import pathlib
import re
import subprocess
import tempfile

import numpy

from flatten.code import GIVES, SAME, Call, Check, Inside, Lists, Tuple, Vector, leaves

# the places of the arguments that are lengths of segments, for which scripts take a descriptor
LENGTHS = {call: 1 for call in "add_rez tot_rez min_rez max_rez and_reb ior_reb dis_vez dis_veb".split()}
LENGTHS |= {"ext_vez": 2, "ext_veb": 2, "ind_lez": 2}

# what the other calls of a script give whose last letter does not say it
KINDS = {"len": "n", "mke": "v", "inp": "z"}


class Script:
    """A script, the text of each of its inputs, and what its result is."""

    def __init__(self, lines, inputs):
        self.text, self.inputs = "".join(f"{line}\n" for line in lines), inputs

    def run(self, program):
        """Runs the script by a program `cvl`: what it prints, and what it says where it stops."""
        with tempfile.TemporaryDirectory() as folder:
            files = [pathlib.Path(folder, name) for name in ("script.cvl", *(f"{k}.txt" for k in range(len(self.inputs))))]
            for file, text in zip(files, (self.text, *self.inputs)):
                file.write_text(text)
            done = subprocess.run([program, *files], capture_output=True, text=True)
        return done.stdout, done.stderr

    def vectors(self, printed):
        """The vectors of the result, of what the script printed."""
        for words in re.findall(r"^result\d+ = \[(.*)\]$", printed, re.M):
            words = words.split()
            flags = words[:1] in (["T"], ["F"])
            yield numpy.array([word == "T" for word in words], bool) if flags else numpy.array(words, numpy.int32)

    def error(self, stopped):
        """The kind and the line of the error at which a script stopped, of what it said: the comment on its line has them."""
        line = self.text.splitlines()[int(re.match(r"line (\d+): fault", stopped)[1]) - 1]
        return re.search(r"# (\w+), line (\d+)$", line).groups()


def written(function, vectors):
    """The script of a function for the vectors of its arguments."""
    writer = _Writer()
    names = [name for value in function.block.inputs for name in leaves(value)]
    given = dict(zip(names, vectors))
    for value in function.block.inputs:
        writer.parameter(value, given)
    writer.names[function.block.count] = "1"
    writer.block(function.block)
    for k, name in enumerate(leaves(function.block.result), 1):
        kind = "z" if writer.kinds[writer.names[name]] == "z" else "b"
        writer.lines += [f"result{k} = cpy_wu{kind} {writer.names[name]}", f"write result{k}"]
    return Script(needed(writer.lines), writer.inputs)


def needed(lines):
    """The lines that a result needs, or that may stop; their names count from v1."""
    read, found, names = set(), [], {}
    for line in reversed(lines):
        name, *words = re.findall(r"\w+", line.partition("#")[0])
        if name in read or not name.startswith("v") or "#" in line:
            found.append(line)
            read.update(words)
    return [re.sub(r"\bv\d+\b", lambda name: names.setdefault(name[0], f"v{len(names) + 1}"), line) for line in reversed(found)]


class _Writer:
    """Lines so far, the name or number that stands in them for each name of the code, and the kind of each."""

    def __init__(self):
        self.lines, self.bound, self.inputs, self.names, self.kinds, self.inside = [], {}, [], {}, {}, []

    def line(self, call, *words, error=None):
        """Writes a line that binds a new name, unless one has bound the same."""
        text = f"{call} {' '.join(map(str, words))}"
        if text not in self.bound:
            name = self.bound[text] = f"v{len(self.bound) + 1}"
            self.lines.append(f"{name} = {text}" + (f"    # {error.kind.__name__}, line {error.line}" if error else ""))
            self.kinds[name] = GIVES.get(call) or KINDS.get(call[:3], "z" if call[-1] == "z" else "b")
        return self.bound[text]

    # ---- arguments ----

    def parameter(self, value, given, is_outer=True):
        """Binds what an argument is made of to inputs. The length of a list is that of what it holds; those of lists in it are
        an input."""
        if isinstance(value, Tuple):
            for part in value.parts:
                self.parameter(part, given, is_outer)
        elif isinstance(value, Vector):
            self.input(value, given)
        elif is_outer:
            self.parameter(value.inner, given, False)
            self.names[value.lengths.name] = self.line("dis_vuz", self.length(self.names[leaves(value.inner)[0]]), 1)
        else:
            self.input(value.lengths, given)
            self.parameter(value.inner, given, False)

    def input(self, vector, given):
        self.inputs.append(" ".join(map(str, given[vector.name].astype(int).tolist())))
        name = self.line("input", len(self.inputs))
        self.names[vector.name] = name if vector.kind == "z" else self.line("boo_wuz", name)

    # ---- code ----

    def block(self, block):
        for step in block.steps:
            if isinstance(step, Call):
                self.names[step.name] = self.call(step.call, [self.word(word) for word in step.given], step.error)
            elif isinstance(step, Check):
                fine = self.line("int_wub", self.line("not_wub", self.names[step.flags]))
                self.line("div_wuz", fine, fine, error=step.error)
            elif isinstance(step, Inside):
                self.block(step.block)
                self.names.update(zip(leaves(step.result), [self.names[name] for name in leaves(step.block.result)]))
            else:
                self.apply(step)

    def apply(self, step):
        """Writes a function where it is called. Its names are its own, also if it is called again."""
        if step.function in self.inside:
            raise ValueError(f"{step.function.name} calls itself, and a script has no recursion")
        names, block = self.names, step.function.block
        self.names = {block.count: self.word(step.count)}
        for parameter, value in zip(block.inputs, step.given):
            self.names.update(zip(leaves(parameter), [names[name] for name in leaves(value)]))
        self.inside.append(step.function)
        self.block(block)
        self.inside.pop()
        self.names = {**names, **dict(zip(leaves(step.result), [self.names[name] for name in leaves(block.result)]))}

    def word(self, word):
        """What stands in a line for a name, a number or a boolean."""
        if isinstance(word, bool):
            return "T" if word else "F"
        return self.names[word] if isinstance(word, str) else word

    def call(self, call, words, error):
        """Writes a call. Where a number stands for a vector, it becomes one; lengths become a descriptor."""
        if call == SAME:
            return words[0]
        if hasattr(self, call):
            return getattr(self, call)(*words)
        if call[-3] == "w":
            vector = next(word for word in words if self.is_vector(word))
            words = [word if self.is_vector(word) else self.copies(word, self.length(vector)) for word in words]
        if call in LENGTHS:
            words[LENGTHS[call]] = self.line("mke_fov", words[LENGTHS[call]])
        return self.line(call, *words, error=error)

    def is_vector(self, word):
        return self.kinds.get(word) in ("z", "b")

    def length(self, name):
        return self.line(f"len_lu{self.kinds[name]}", name)

    def copies(self, word, length):
        is_flag = word in ("T", "F") or self.kinds.get(word) == "t"
        return self.line("dis_vub" if is_flag else "dis_vuz", word, length)

    # ---- calls that scripts do not have ----

    def gather_segments_int(self, values, starts, lengths):
        cuts = self.line("mke_fov", lengths)
        places = self.line("ind_lez", starts, self.copies(1, self.length(starts)), cuts)
        return self.line(f"bck_pu{self.kinds[values]}", values, places)

    def append_segments_int(self, a, b, lengths, others):
        both = self.line("add_wuz", lengths, others)
        begin = self.line("add_suz", both)
        one = self.copies(1, self.length(lengths))
        places = self.line("ind_lez", begin, one, self.line("mke_fov", lengths))
        behind = self.line("ind_lez", self.line("add_wuz", begin, lengths), one, self.line("mke_fov", others))
        return self.two(a, places, b, behind, self.line("add_ruz", both))

    def merge_by_flags_int(self, flags, a, b):
        count = self.length(flags)
        places = self.line("ind_luz", 0, 1, count)
        first, second = (self.line("pck_luz", places, way) for way in (flags, self.line("not_wub", flags)))
        return self.two(a, first, b, second, count)

    def two(self, a, places, b, others, count):
        """One vector of two, each of which has its places in it."""
        kind = self.kinds[a]
        room = self.copies("F" if kind == "b" else 0, count)
        return self.line(f"def_pu{kind}", b, others, self.line(f"def_pu{kind}", a, places, room))

    gather_segments_bool, append_segments_bool, merge_by_flags_bool = gather_segments_int, append_segments_int, merge_by_flags_int

    def seg_sort(self, values, lengths):
        """By each bit from the lowest on, the even of each segment before the odd; by the sign the other way round."""
        count, cuts = self.length(values), self.line("mke_fov", lengths)
        one = self.copies(1, count)
        for bit in range(32):
            ones = self.line("and_wuz", self.line("rsh_wuz", values, self.copies(bit, count)), one)
            zeros = self.line("sub_wuz", one, ones)
            first, last = (zeros, ones) if bit < 31 else (ones, zeros)
            behind = self.line("dis_vez", self.line("add_rez", first, cuts), cuts)
            places = self.line("add_wuz", behind, self.line("add_sez", last, cuts))
            flags = self.line("boo_wuz", last)
            values = self.line("smp_pez", values, self.line("sel_wuz", flags, places, self.line("add_sez", first, cuts)), cuts)
        return values
