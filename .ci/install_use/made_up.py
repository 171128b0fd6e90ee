"""All rows of the made-up checkout. Functions of rows run side by side, each in a checkout of its own."""
import multiprocessing

from install_use import hindering, placing, taking

ROWS = [*placing.ROWS, *hindering.ROWS, *taking.ROWS]


def rows_of(rows, folder):
    return [*rows(folder)]


def made_up_rows(folder):
    """Whether each row is well, which is printed in the order of the rows."""
    with multiprocessing.get_context("fork").Pool() as pool:
        for told in pool.starmap(rows_of, [(rows, folder) for rows in ROWS], chunksize=1):
            for text, is_well in told:
                print(text, flush=True)
                yield is_well
