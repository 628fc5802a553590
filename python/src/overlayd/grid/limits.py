"""The limits of overlayd and the borders of its columns: the one place where Python has these numbers."""

COORDINATE_MAX = 2**20
COLUMNS = 33
COLUMN_WIDTH = 2**16
LAYERS_MAX = 32
STEPS_MAX = 2048
PIECES_MAX = 65536
NAME_MAX = 32
TOKENS_MAX = 64
LINE_MAX = 65536
BATCH_MAX = 64
WEIGHT_MAX = 1024
GRID_MAX = 256
STEP_MAX = 2**21
BLOCKS_MAX = 2**20


def column_begin(column: int) -> int:
    """The x at which a column begins; the last one is the line x = COORDINATE_MAX."""
    return COLUMN_WIDTH * column - COORDINATE_MAX
