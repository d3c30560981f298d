"""Counts the instructions of a script's steps, or of a server, by valgrind's callgrind."""

# The functions that take a step, whose names begin so, and which a program that is counted has to keep as functions.
STEP = "interleave::play::Play::step::"


def functions_of(file):
    """The instructions in each function that a file of counts tells of."""
    counts, function, is_call = {}, "", False
    with open(file, encoding="utf-8", errors="replace") as it:
        for line in it:
            if line.startswith("fn="):
                function = line[3:].strip()
            elif line[:1] in "0123456789+-*" and not is_call:
                counts[function] = counts.get(function, 0) + int(line.split()[1])
            is_call = line.startswith("calls=")
    return counts


def counted(program, room, play_by):
    """The instructions in each function while steps are taken. What plays the script is given the words of its program."""
    words = ["valgrind", "--tool=callgrind", "--compress-strings=no", f"--callgrind-out-file={room}/counts"]
    play_by([*words, f"--toggle-collect={STEP}*", program])
    return functions_of(f"{room}/counts")


def calls_of(file, functions):
    """How often these functions were called, by a file of counts."""
    found, callee = 0, ""
    with open(file, encoding="utf-8", errors="replace") as it:
        for line in it:
            if line.startswith("cfn="):
                callee = line[4:].strip()
            elif line.startswith("calls=") and callee in functions:
                found += int(line[6:].split()[0])
    return found
