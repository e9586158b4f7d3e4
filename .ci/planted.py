"""Differences that `.ci/check-pages` has to report: for each comparison edits of files, each a file, a text in it and another text.
If the first text is empty, the other one stands at the end of the file, which may be new. The last file is the one reported."""

CALLS, SCRIPT, MANUAL = "docs/user/calls.md", "docs/user/script.md", "docs/man/cvl.1"

# a table of wrong bodies
PROVED, BODIES, TABLE = (
    "docs/user/proved.md",
    "docs/dev/wrong-bodies.md",
    "\n## What shows each promise\n\n| Wrong body | Refused by |\n|---|---|\n",
)

EDITS = {
    "examples.check_examples": [(CALLS, "sum = [22 -5", "sum = [23 -5")],
    "examples.check_runs": [("README.md", "\n    y = [5 0 18]", "\n    y = [5 0 19]")],
    "examples.check_code": [("docs/dev/embedding.md", "pub fn sums<", "pub fn totals<")],
    "examples.check_tasks": [("docs/user/tasks.md", "### Transpose", "### Turn a matrix")],
    "examples.check_scripts": [
        (
            "docs/user/tasks.md",
            "Script: [tutorial](tutorial.md#5-a-histogram)",
            "Script: [tutorial](tutorial.md#where-to-go-from-here)",
        )
    ],
    "examples.check_blocks": [("docs/dev/embedding.md", "`crates/embedding/src/memory.rt`", "In memory:")],
    "examples.check_embedding": [("docs/dev/embedding.md", "sums: Ok([4, 2, 8", "sums: Ok([4, 2, 9")],
    "examples.check_inputs": [("crates/script_cases/data/tutorial.cases", "\n10 20 30 40\n== script", "\n10 20 30\n== script")],
    "examples.check_session": [("docs/user/tutorial.md", "$ echo 3 1 7 0 >", "$ echo 3 1 7 >")],
    "calls.check_names": [(CALLS, "### div_wuz mod_wuz", "### div_wuz rem_wuz")],
    "calls.check_plain_reading": [("crates/script_cases/generator/calls.py", '"cpy_wuz":', '"copy_wuz":')],
    "calls.check_index": [(CALLS, "[`div_wuz`](#div_wuz-mod_wuz)", "[`div_wuz`](#div_wuz)")],
    "calls.check_glossary": [("docs/user/glossary.md", "`len_fos`", "`len`")],
    "calls.check_cpp": [("docs/user/cpp.md", "`cvl::first_true` of", "`cvl::first_index` of")],
    "calls.check_letters": [("docs/user/sheet.md", "`f` descriptors", "`g` descriptors")],
    "calls.check_without_c": [("include/cvl.h", "len_luz, len_lub and", "len_luz and")],
    "calls.check_without_on": [("docs/user/parallel.md", "`cvl_exact_sum`, `cvl_read_ints_after`", "`cvl_read_ints_after`")],
    "calls.check_starts": [("docs/user/performance.md", "`add_rez`, `smp_puz`", "`add_rez`, `tot_rez`, `smp_puz`")],
    "calls.check_thresholds": [("docs/user/parallel.md", "work from 524,288 on", "work from 524,289 on")],
    "calls.check_faults": [(SCRIPT, "| 10 | IndexOutOfRange |", "| 10 | OutOfRange |")],
    "calls.check_limits": [(SCRIPT, "| 1,048,576 |", "| 1,048,577 |")],
    "faults.check_words": [("bindings/table.py", "them, or the result lengths to out", "them, or the default lengths to out")],
    "costs.check_cases": [("bindings/entries.py", '("default permute, at random",)', '("select permute, at random",)')],
    "costs.check_times": [
        ("bindings/generator/in_site.py", '"1 worker"), times.get("4 workers")', '"4 workers"), times.get("1 worker")'),
    ],
    "program.check_help": [(SCRIPT, "    Usage: cvl [OPTIONS]", "    Usage: cvl [OPTION]")],
    "program.check_manual_statuses": [(MANUAL, "\n.B 3\n", "\n.B 2\n")],
    "program.check_manual_options": [(MANUAL, "[default: 4096]", "[default: 4097]")],
    "program.check_manual_faults": [(MANUAL, "\n10 IndexOutOfRange,", "\n10 OutOfRange,")],
    "program.check_manual_limits": [(MANUAL, "\n.B 1,048,576\n", "\n.B 1,048,577\n")],
    "program.check_fish": [("bindings/shell/cvl.fish", "-l workers", "-l worker")],
    "program.check_zsh": [("bindings/shell/_cvl", "--workers=[", "--worker=[")],
    "program.check_numbers": [("bindings/shell/cvl.fish", "-l tile -x -a", "-l tile -r -a")],
    "program.check_bash": [("bindings/shell/cvl.bash", "--workers", "--worker")],
    "source.check_definitions": [("crates/operators/specs/Integers.antt", "-- the sum, wrapped\n", "")],
    "source.check_define": [("docs/dev/definitions.md", "docs/dev/define IsSimplePermute", "docs/dev/define IsNoPermute")],
    "source.check_drawing": [("docs/dev/architecture.md", "\ncrew  ", "\nteam  ")],
    "source.check_heads": [("crates/crew/src/lib.rt", "//! A crew: several workers", "// A crew: several workers")],
    "source.check_programs": [(".ci/pages/paths.py", '"""The paths', '#!/usr/bin/env python3\n"""The paths')],
    "source.check_columns": [("crates/sharing/src/lib.rt", "", "//" + " long" * 26 + "\n")],
    "promises.check_contracts": [(PROVED, "`run`, `stop_line`", "`run`, `no_such_function`")],
    "promises.check_promises": [(BODIES, "", f"{TABLE}| a body | `crates/boards/must-fail/no_such.edit` |\n")],
    "promises.check_edits": [
        ("crates/boards/must-fail/unnamed.edit", "", "file: src/lib.rt\n"),
        ("bindings/tests/analysis/wrong/two_rooms_meet.edit", "CVL_WRITTEN) &&", "CVL_WRITTEN) ||"),
    ],
    "promises.check_trusted": [(PROVED, "`rayon`, `strsim`, `thiserror`", "`rayon`, `thiserror`")],
    "promises.check_unproved": [(PROVED, "`join_records`, `give`", "`give`")],
    "promises.check_from_c": [("docs/user/rust.md", "is tested, and in part proved by another tool.", "is proved.")],
    "paths.check_paths": [("README.md", "", "\nSee `docs/no-such-page.md`.\n")],
    "paths.check_links": [("README.md", "", "\nSee [a page](docs/no-such-page.md).\n")],
    "paths.check_tests": [("tests/README.md", "`nests.c`", "another")],
    "paths.check_named_pages": [("README.md", "", "\nSee `no-such-page.md`.\n")],
    "commands.check_commands": [("README.md", "", "\n    docs/dev/definitions.md\n")],
    "commands.check_own_paths": [
        ("docs/dev/performance/nested_programs", 'HERE / "nested_programs.c"', 'HERE / "no_programs.c"')
    ],
    "docs/dev/performance/draw": [("docs/user/performance.svg", "</svg>", "<!-- another --></svg>")],
    "docs/dev/performance/over_ranks": [
        ("docs/user/parallel.md", "<!-- drawn: ranks -->\n", "<!-- drawn: ranks -->\nAnother line.\n")
    ],
    "docs/dev/pictures/draw": [("docs/user/pictures/pack.svg", "</svg>", "<!-- another --></svg>")],
    "docs/dev/pictures/draw_race": [("docs/dev/least-words.svg", "</svg>", "<!-- another --></svg>")],
    "bindings/generate": [("include/cvl.h", "", "/* another */\n")],
    # one of its files is made instead of all, which takes half a minute
    "crates/script_cases/generate": [
        ("crates/script_cases/generate", "names = list(FILES)", 'names = ["again"]'),
        ("crates/script_cases/data/generated-again.cases", "", "== case another\n"),
    ],
}

# what a row of the table of wrong bodies may name, and what is not there
THERE = (
    "crates/boards/must-fail/join_swapped.edit",
    "bindings/tests/analysis/wrong/room_not_put_back.edit",
    "crates/test_runs/src/shown.rt::as_text",
    "crates/script_cases/data/scans.cases: a sum that wraps",
    "tests/installation/test_archive.py::test_a_compiler_with_options",
    "tests/c/pools.c::main",
    "tests/process/resources: shares 2 'r = add_suz i'",
)
NOT_THERE = (
    "crates/boards/must-fail/no_such.edit",
    "bindings/tests/analysis/wrong/no_such.edit",
    "crates/boards/src/look_back.rt",
    "crates/test_runs/src/shown.rt::no_such",
    "crates/test_runs/src/no_such.rt::as_text",
    "crates/test_runs/src/requests.rt::requests_of",
    "crates/script_cases/data/scans.cases: a sum that",
    "tests/installation/test_archive.py::assertIn",
    "tests/c/pools.c::mai",
    "tests/process/resources: shares 5 'r = add_suz i'",
    "tests/process/program: Runs the program the repository",
    "a test",
)
