"""How a run of `xnum` has to end, by plain judges: status, standard output and standard error."""
import plain_check
import plain_gml
import plain_rules
import plain_words

NO_WORDS = (2, "", "xnum: the words are not a command of this program\n")
NO_READ = (6, "", "xnum: a read failed\n")


def drawing_line(counts):
    return "drawing crossings {} nodes {} edges {} faces {} components {}\n".format(*counts)


def judged(command, graph, data):
    """What is written for an answer that isn't refused."""
    if command == b"check":
        return "accepted {} {}\n".format(*plain_check.check(graph[:3], data))
    drawing, counts = plain_check.see(graph and graph[:3], data)
    return plain_rules.shown(graph[3], *drawing[1:]) if graph else drawing_line(counts)


def wanted(words, files):
    """The end of the run with these words (bytes, without the program's name) over these files, by their names. For `solve` of a
    graph it is that graph and the budget, for `solve_flaw`."""
    request = plain_words.read(words)
    if request is None:
        return NO_WORDS
    command, names, budget = request
    try:
        data = files[names[0]]
        graph = None if command == b"examine" else plain_gml.read(data)
        if command == b"solve":
            return graph[:3], budget
        if graph:
            data = files[names[1]]
        return 0, judged(command, graph, data), ""
    except KeyError:
        return NO_READ
    except plain_gml.Ended as ended:
        return ended.status, "", ended.text
    except plain_check.Refused as refused:
        return 1, f"{refused}\n", ""


def solve_flaw(graph, budget, end):
    """What is wrong with an end of `solve`, or None: its answer has to be accepted, with the bounds that the status tells."""
    status, written, said = end
    if status not in (0, 5) or said:
        return f"ended with {status}, saying {said!r}"
    try:
        lower, upper = plain_check.check(graph, written.encode())
    except plain_check.Refused as refused:
        return f"its answer is {refused}"
    spent, told = next(line for line in written.split("\n") if line.startswith("effort ")).split(" ")[1:]
    if int(told) != budget:
        return f"tells the budget {told}"
    if (status == 0) != (lower == upper) or lower > upper or status == 5 and spent != told:
        return f"ended with {status} at {lower} {upper}, {spent} of {told} spent"
    return None
