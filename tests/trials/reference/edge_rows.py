"""Which edge rows leave a scope, in any table, from document 02, K4: the rows of the scope above the first row of a later scope."""


def places(rows, scope):
    above = []
    for i, row in enumerate(rows):
        if row[1] > scope:
            break
        above.append((6 * i, row[1]))
    return [at for at, leaves in above if leaves == scope]
