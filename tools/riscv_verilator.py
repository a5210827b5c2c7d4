"""A netlist of `pdl build` as a program, by Verilator, which prints the lines that `pdl run` prints of its source.

The arrays of the netlist take their words from files `NAME.hex` of the folder in which it runs, so it is compiled once
for all images. Its delayed memories stand outside of it, in the program, and answer as a delay file says.
"""

import pathlib
import subprocess

from real_tools import Module, write_words

START = """#include "Vpdl.h"
#include "verilated.h"
#include <cstdio>
#include <cstdlib>
#include <string>
#include <vector>

struct Delayed {
    const char *name;
    std::vector<unsigned long long> words;
    unsigned long long at = 0;
    bool asked = false;
};

static Delayed delayed(const char *name, int depth) {
    Delayed it;
    it.name = name;
    FILE *file = fopen((std::string(name) + ".hex").c_str(), "r");
    unsigned long long word;
    while (fscanf(file, "%llx", &word) == 1) it.words.push_back(word);
    fclose(file);
    it.words.resize(depth);
    return it;
}

static std::vector<std::string> rows_of(const char *path) {
    std::vector<std::string> rows;
    char row[64];
    FILE *file = fopen(path, "r");
    while (fscanf(file, "%63s", row) == 1) rows.push_back(row);
    fclose(file);
    return rows;
}

int main(int argc, char **argv) {
    VerilatedContext *context = new VerilatedContext;
    Vpdl *top = new Vpdl(context);
    const unsigned long cycles = strtoul(argv[1], nullptr, 10);
    const std::vector<std::string> rows = argc > 2 ? rows_of(argv[2]) : std::vector<std::string>();
    std::vector<Delayed> outside;
    unsigned long ended = 0, waits = 0, squashes = 0;
"""

CYCLE = """    top->clk = 0; top->rst = 1; top->eval();
    top->clk = 1; top->eval();
    top->clk = 0; top->rst = 0; top->eval();
    for (unsigned long cycle = 1; cycle <= cycles; cycle++) {
        bool waiting = false;
        std::vector<bool> answered;
        for (size_t k = 0; k < outside.size(); k++) {
            const bool bit = cycle > rows.size() || rows[cycle - 1][k] == '1';
            answered.push_back(outside[k].asked && bit);
            waiting = waiting || (outside[k].asked && !bit);
        }
"""

END = """        ended += top->ended;
        squashes += top->squash;
        waits += waiting;
        top->clk = 1; top->eval();
        top->clk = 0; top->eval();
    }
    printf("end cycles %lu ended %lu waits %lu squashes %lu\\n", cycles, ended, waits, squashes);
}
"""


def commit(module, name, enable, at, value):
    """The line of a write of a memory."""
    digits = (module.width[value] + 3) // 4
    values = f"cycle, (unsigned long long)top->{at}, (unsigned long long)top->{value}"
    return f'        if (top->{enable}) printf("%lu {name} %llu %0{digits}llx\\n", {values});'


def answer(number, name):
    """What the netlist is given of a delayed memory in a cycle."""
    word = f"answered[{number}] ? outside[{number}].words[outside[{number}].at] : 0"
    return f"        top->p_{name} = answered[{number}]; top->pd_{name} = {word};"


def keep(module, number, name):
    """What a delayed memory keeps of a cycle: the writes that it receives and what it is asked."""
    it = f"outside[{number}]"
    written = [f"        if (top->{enable}) {it}.words[top->{at}] = top->{value};" for enable, at, value in module.commits_of(name)]
    over = f"        if (answered[{number}]) {it}.asked = false;"
    asked = f"        if (top->q_{name}) {{ {it}.asked = true; {it}.at = top->qa_{name}; }}"
    return [*written, over, asked]


def main_text(module):
    """The program round the netlist, in C++."""
    outside = [f'    outside.push_back(delayed("{name}", {1 << bits}));' for name, _, bits in module.delayed()]
    names = list(enumerate(name for name, _, _ in module.delayed()))
    return "\n".join(
        [
            START + "\n".join(outside),
            CYCLE + "\n".join(answer(number, name) for number, name in names),
            "        top->eval();",
            *(commit(module, *it) for it in module.commits()),
            *(line for number, name in names for line in keep(module, number, name)),
            END,
        ]
    )


class Verilated:
    """The netlist of a source, compiled in a folder of its own."""

    def __init__(self, pdl, source, folder):
        self.folder = pathlib.Path(folder)
        self.folder.mkdir(parents=True)
        text = self.said([pdl, "build", source])
        self.module = Module(text)
        loads = [f'initial $readmemh("{name}.hex", a_{name});\n' for name in self.module.arrays]
        (self.folder / "pdl.v").write_text(text.replace("endmodule", "".join(loads) + "endmodule"))
        (self.folder / "main.cpp").write_text(main_text(self.module))
        flags = ["--cc", "--exe", "--build", "-O3", "--prefix", "Vpdl", "-Wno-fatal"]
        self.said(["verilator", *flags, "main.cpp", "pdl.v"])

    def said(self, words):
        """What a command prints; it has to end well."""
        ran = subprocess.run(list(map(str, words)), cwd=self.folder, capture_output=True, text=True)
        if ran.returncode:
            raise SystemExit(f"{words[0]} ends with status {ran.returncode}: {(ran.stdout + ran.stderr)[-2000:]}")
        return ran.stdout

    def run(self, image, cycles, delays=None):
        """The lines of a run from the text of an image, with a delay file or none."""
        write_words(self.module, image, self.folder)
        return self.said(["obj_dir/Vpdl", cycles] + ([delays] if delays else []))
