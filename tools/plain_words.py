"""What the words of a command line ask for, by the rules of docs/FORMATS.md, plainly."""
import re

NUMBER = re.compile(rb"0|[1-9][0-9]*")
FILES = {b"solve": 1, b"check": 2, b"examine": 1, b"draw": 2}


def read(words):
    """The command, its files and its budget, or None. The words are bytes, without the program's name."""
    try:
        b" ".join(words).decode()
    except UnicodeDecodeError:
        return None
    operands, budgets, plain = [], [], False
    words = list(words)
    while words:
        word = words.pop(0)
        if plain or word == b"-" or not word.startswith(b"-"):
            operands.append(word)
        elif word == b"--":
            plain = True
        elif word.startswith(b"--budget="):
            budgets.append(word[9:])
        elif word == b"--budget" and words:
            budgets.append(words.pop(0))
        else:
            return None
    if not operands or len(operands) != 1 + FILES.get(operands[0], -1) or len(budgets) > 1:
        return None
    if budgets and (operands[0] != b"solve" or not NUMBER.fullmatch(budgets[0]) or len(budgets[0]) > 6 or int(budgets[0]) > 200000):
        return None
    return operands[0], operands[1:], int(budgets[0]) if budgets else 10000
