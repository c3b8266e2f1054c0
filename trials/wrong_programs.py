"""Programs that are wrong in one way each, as shell scripts around the right one, with the reason for which each has to be noticed."""

import os

ASK = "answer=$(PREDICT); status=$?\n"


def edited(*edits):
    """The right program's lines, edited, with its status."""
    return ASK + "printf '%s\\n' \"$answer\" | sed " + " ".join("-e '%s'" % edit for edit in edits) + "\nexit $status"


NONE_FOR_FOUND = edited("s/^(verdict found)/(verdict none)/", "/^(run/d")

# What is done, the reason, and the script; PREDICT stands for the right program.
WRONG = (
    ("one more pair where the number ends in 0", "answer", edited(r"s/^(pairs \(.*\)0)/(pairs \11)/")),
    ("the last two threads of the run exchanged", "answer", edited(r"s/^(run \(.*\)\(.\) \(.\))/(run \1\3 \2)/")),
    ("none where there is a run", "answer", NONE_FOR_FOUND),
    ("always none", "answer", "echo '(verdict none)'\necho '(pairs 1)'"),
    ("none where the rows do not suffice", "answer", ASK + "case $answer in *search*) answer='(verdict none)\n(pairs 2048)'; status=0;; esac\necho \"$answer\"\nexit $status"),
    ("62 for 61", "answer", edited("s/^(fault text 61/(fault text 62/")),
    ("a column less where it ends in 3", "answer", edited(r"s/^(fault text \(.*\)3)/(fault text \12)/")),
    ("a line more where an event is refused", "answer", edited(r"s/^(fault record \(.*\) 2 1)/(fault record \1 3 1)/")),
    ("another layer", "answer", edited("s/^(fault rule/(fault record/")),
    ("CR LF taken for a line end", "answer", "tr -d '\\r' | PREDICT"),
    ("NUL skipped", "answer", "tr -d '\\000' | PREDICT"),
    ("tab taken for a blank", "answer", "tr '\\t' ' ' | PREDICT"),
    ("doubled blanks taken for one", "answer", "tr -s ' ' | PREDICT"),
    ("only 4,096 bytes read", "answer", "head -c 4096 | PREDICT"),
    ("only 60,000 bytes read", "answer", "head -c 60000 | PREDICT"),
    ("status 0 for a fault", "status", "PREDICT\nexit 0"),
    ("status 1 for a verdict", "status", "PREDICT\nexit 1"),
    ("status 2 for a fault", "status", "PREDICT || exit 2"),
    ("a line too many", "shape", "PREDICT\nstatus=$?\necho\nexit $status"),
    ("no last line end", "shape", ASK + "printf '%s' \"$answer\"\nexit $status"),
    ("no run", "shape", edited("/^(run/d")),
    ("a run with none", "shape", edited("s/^(verdict found)/(verdict none)/")),
    ("nothing said", "shape", "exit 0"),
    ("a word on standard error", "standard error", "PREDICT\nstatus=$?\necho fault >&2\nexit $status"),
    ("memory without end", "standard error", "x=xxxxxxxx\nwhile :; do x=$x$x; done"),
    ("a sleep", "late", "sleep 60"),
    ("a loop without end", "signal", "while :; do :; done"),
    ("a segmentation fault", "signal", "kill -SEGV $$"),
    ("a segmentation fault after the answer", "signal", "PREDICT\nkill -SEGV $$"),
    ("closed standard input taken for an empty text", "closed", "true 2>/dev/null 3<&0 || { echo '(fault text 62 1 1)'; exit 1; }\nexec PREDICT"),
)

# The same, where the reference reading is left out and only the listing of all orders and the definition of a run can notice it.
WRONG_IN_RUNS = (
    ("a run of thread 7 alone", "run", edited("/^(run/s/[0-9]/7/g")),
    ("none where there is a run", "orders", NONE_FOR_FOUND),
    ("a run where there is none", "run", ASK + "case $answer in '(verdict none)\n(pairs 2)') answer='(verdict found)\n(pairs 2)\n(run 0)';; esac\necho \"$answer\"\nexit $status"),
)


def write(folder, name, script, program):
    path = os.path.join(folder, name.replace(" ", "-"))
    with open(path, "w") as file:
        file.write("#!/bin/sh\n" + script.replace("PREDICT", os.path.abspath(program)) + "\n")
    os.chmod(path, 0o755)
    return path
