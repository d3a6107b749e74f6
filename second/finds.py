"""The steady check and find: a plain reading of docs/FIND.md, over the tables of breaks.py."""

from collections import deque

import breaks

# What is known of the last mark while a row of classes is read backward. Besides these there is a class c: the mark
# was set on class c, and the class that stands before it in the text has not been read yet.
NO_MARK, SURE, UNSURE = "no mark", "sure", "unsure"


def unsure_exits(table):
    """The places of the backward codes by which a scan can exit with an unsure last mark: a set.

    A search over all (state, what is known of the last mark) that rows of classes lead to, from state 1 and no mark.
    """
    sure = table.sure_pairs()
    classes = range(table.classes)
    sure_after_all = {c for c in classes if all((d, c) in sure for d in classes)}
    codes = {state: [table.backward_code(state, c) for c in classes] for state in range(1, table.backward_states)}

    found = set()
    seen = {(1, NO_MARK)}
    waiting = deque(seen)
    while waiting:
        state, known = waiting.popleft()
        for read in classes:
            marks, following = codes[state][read]
            if following == 0:
                # A mark that this very code sets is the last one; the class before it is not read any more.
                if marks:
                    unsure = read not in sure_after_all
                else:
                    unsure = judged(known, read, sure) == UNSURE
                if unsure:
                    found.add(table.backward_code_place(state, read))
            else:
                then = (following, read if marks else judged(known, read, sure))
                if then not in seen:
                    seen.add(then)
                    waiting.append(then)
    return found


def judged(known, read, sure):
    """What is known of the last mark once the class read comes after what was known, and sets no mark itself."""
    if known in (NO_MARK, SURE, UNSURE):
        return known
    return SURE if (read, known) in sure else UNSURE


def try_steady(table):
    """The steady check of an accepted table: raises Refused where it is not steady."""
    places = unsure_exits(table)
    if places:
        raise breaks.Refused(8, breaks.BACKWARD, min(places))


def is_steady(table):
    """Whether an accepted table is steady."""
    return not unsure_exits(table)


def backup(table):
    """doBackup, the signed word at place 12 of the header."""
    return breaks.word(table.data, 12)


def beginning(table, text, place):
    """Where find begins for a place of a text."""
    if place < backup(table):
        return 0

    # The characters up to the one that covers the place, counted from the text's start; read from the last one on.
    characters = [character for character in table.chars(text) if character[0] <= place]
    state = 1
    mark = None
    for start, _, char_class in reversed(characters):
        marks, state = table.backward_code(state, char_class)
        if marks:
            mark = start
        if state == 0:
            return 0 if mark is None else mark
    return 0  # the text ran out


def find(table, text, place):
    """The start and the end of the run that find gives at a place of a text."""
    breaks.try_text(text)
    breaks.try_place(text, place)
    start = beginning(table, text, place)
    stop = table.end(text, start)
    while stop <= place:
        start, stop = stop, table.end(text, stop)
    return start, stop
