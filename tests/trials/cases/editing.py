"""Cases of texts and tables with small changes at random places, in all forms of file."""
from cases.case_file import Dice
from cases.file_calls import TOP, name_cells, reads, try_read, writes
from cases.gyms import graph, kinds_text, text_of, turns_text

# what is put in
BYTES = b" \n$IPZ01234569acz_@\x80"
CELLS = [0, 1, 2, 3, 4, 5, 6, 7, 8, 9, 15, 16, 64, 65, 80, 90, 91, 65535, 65536, 99999, 100000, TOP] + name_cells("abcdefghij")[1:]
KIND_CELLS = [96, 97, 99, 118, 122, 123, 256 + 118]


def edited_text(dice, text, put):
    lines = text.splitlines(keepends=True)
    i, n = dice.below(len(text)), dice.below(len(lines) - 1)
    new = bytes([dice.pick(put)])
    return dice.pick([
        text[:i] + new + text[i + 1 :],
        text[:i] + new + text[i:],
        text[:i] + text[i + 1 :],
        b"".join(lines[:n] + [lines[n + 1], lines[n]] + lines[n + 2 :]),
        b"".join(lines[: n + 1] + lines[n:]),
        b"".join(lines[:n] + lines[n + 1 :]),
    ])  # fmt: skip


def edited_cells(dice, cells, put):
    i, n = dice.below(len(cells)), 1 + 6 * dice.below((len(cells) - 1) // 6 - 1)
    new = dice.pick(put)
    return dice.pick([
        cells[:i] + [new] + cells[i + 1 :],
        cells[:i] + [new] + cells[i + 1 :],
        cells[:i] + [new] + cells[i:],
        cells[:i] + cells[i + 1 :],
        cells[:n] + cells[n + 6 : n + 12] + cells[n : n + 6] + cells[n + 12 :],
        cells[: n + 6] + cells[n:],
        cells[:n] + cells[n + 6 :],
    ])  # fmt: skip


def edited(dice, title, text, letters, numbers):
    """Small changes at random places: one or two to a case."""
    for n in range(240):
        new = edited_text(dice, text, letters)
        reads("%sedited text %d" % (title, n), edited_text(dice, new, letters) if n % 3 == 0 else new)
    for n in range(240):
        cells = edited_cells(dice, try_read(text), numbers)
        writes("%sedited %d" % (title, n), edited_cells(dice, cells, numbers) if n % 3 == 0 else cells)


def cases():
    small = graph(["I", "P"], ["$ I", "$ P", "I P"], ["0 I 1", "0 P 0"], ["0", "1"], ["3"], ["1 P 0", "2 I 1"], ["0 ab 5", "1 a_c 6"], ["1 $"], ["1 ab", "2 a"])
    edited(Dice(2026), "", text_of(small), BYTES, CELLS)
    kinds = graph(["I"], ["$ I"], [], ["0"], ["3"], ["2 I 1"], ["0 c ab 5", "0 v a 7", "0 v ab 5", "1 l a_c 6"], ["1 $"], ["1 c ab", "2 v a", "0 z a"])
    edited(Dice(8), "with kinds: ", kinds_text(kinds), BYTES + b"lv`{", CELLS + KIND_CELLS)
    turns = graph(["I"], [], [], ["0"], ["3"], ["0 I 1 2", "0 I 2 1", "2 I 0 1"], ["0 c ab 5"], ["1 $"], ["1 c ab", "2 v a"])
    edited(Dice(12), "with turns: ", turns_text(turns), BYTES + b"lv`{", CELLS + KIND_CELLS + [98, 100])
